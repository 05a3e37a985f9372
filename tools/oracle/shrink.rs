//! How a failing input is made small. Each kind of input knows its own steps; a step is kept while the failure stays.

use crate::block;
use crate::valid;

/// Elements or bytes of a run that are shown of an input; the seed gives it whole.
const LONGEST: usize = 160;

/// Whether an input still fails.
pub type Fails<'a, T> = &'a mut dyn FnMut(&T) -> bool;

pub trait Shrink: Clone {
    /// Makes `self` as small as it can while `fails` holds of it.
    fn shrink(&mut self, fails: Fails<Self>);
    fn show(&self) -> String;
}

/// A list that may lose elements (writes, commands, events): whole runs first, then each element is made simple.
#[derive(Clone)]
pub struct List<T>(pub Vec<T>);

/// Bytes of a fixed number (a screen, a part of the block, a command): runs of them are set to zero.
#[derive(Clone)]
pub struct Bytes(pub Vec<u8>);

/// A valid block, which stays valid: its parts go back to those of `new` or to zero.
#[derive(Clone)]
pub struct Block(pub Vec<u8>);

/// Deletes runs of `list`, halves first, while `fails` holds.
pub fn shrink_list<T: Clone>(list: &mut Vec<T>, fails: Fails<Vec<T>>) {
    let mut run = list.len().div_ceil(2);
    while run > 0 {
        let mut at = 0;
        while at < list.len() {
            let end = (at + run).min(list.len());
            let shorter = [&list[..at], &list[end..]].concat();
            if fails(&shorter) {
                *list = shorter;
            } else {
                at = end;
            }
        }
        run /= 2;
    }
}

/// Sets runs of `bytes` to those of `plain`, halves first, while `fails` holds.
pub fn shrink_bytes(bytes: &mut Vec<u8>, plain: &[u8], fails: Fails<Vec<u8>>) {
    let mut run = bytes.len();
    while run > 0 {
        for at in (0..bytes.len()).step_by(run) {
            let end = (at + run).min(bytes.len());
            if bytes[at..end] != plain[at..end] {
                let mut plainer = bytes.clone();
                plainer[at..end].copy_from_slice(&plain[at..end]);
                if fails(&plainer) {
                    *bytes = plainer;
                }
            }
        }
        run /= 2;
    }
}

impl<T: Shrink> Shrink for List<T> {
    fn shrink(&mut self, fails: Fails<Self>) {
        shrink_list(&mut self.0, &mut |list| fails(&List(list.clone())));
        for i in 0..self.0.len() {
            let list = self.0.clone();
            self.0[i].shrink(&mut |x| {
                let mut list = list.clone();
                list[i] = x.clone();
                fails(&List(list))
            });
        }
    }

    fn show(&self) -> String {
        let all: Vec<String> = self.0.iter().take(LONGEST).map(T::show).collect();
        let cut = if self.0.len() > LONGEST { " .." } else { "" };
        format!("{} of [{}{cut}]", self.0.len(), all.join(" "))
    }
}

impl Shrink for Bytes {
    fn shrink(&mut self, fails: Fails<Self>) {
        let zero = vec![0; self.0.len()];
        shrink_bytes(&mut self.0, &zero, &mut |b| fails(&Bytes(b.clone())));
    }

    fn show(&self) -> String {
        format!("{} bytes, {}", self.0.len(), runs(&self.0, &[]))
    }
}

impl Shrink for Block {
    fn shrink(&mut self, fails: Fails<Self>) {
        let mut fails = |b: &Vec<u8>| valid::check(b).is_ok() && fails(&Block(b.clone()));
        let mut plain = block::new();
        shrink_bytes(&mut self.0, &plain, &mut fails);
        // what can't be as in `new` may still be zero
        for (byte, kept) in plain.iter_mut().zip(&self.0) {
            *byte = if *byte == *kept { *byte } else { 0 };
        }
        shrink_bytes(&mut self.0, &plain, &mut fails);
    }

    fn show(&self) -> String {
        format!("`new` with {}", runs(&self.0, &block::new()))
    }
}

macro_rules! number {
    ($($t:ty),*) => {$(
        impl Shrink for $t {
            fn shrink(&mut self, fails: Fails<Self>) {
                for bit in (0..<$t>::BITS).rev() {
                    let smaller = *self & !(1 << bit);
                    if smaller != *self && fails(&smaller) {
                        *self = smaller;
                    }
                }
            }

            fn show(&self) -> String {
                format!("{self:02X}")
            }
        }
    )*};
}
number!(u8, u16, u32, usize);

// The last part first: a list stands there, and a short one makes every later try quick. Twice, since each part that
// shrinks may let the others shrink on.
macro_rules! tuple {
    ($($part:ident $i:tt),*; $($last_first:tt),*) => {
        impl<$($part: Shrink),*> Shrink for ($($part,)*) {
            fn shrink(&mut self, fails: Fails<Self>) {
                for _ in 0..2 {
                    $(
                        let whole = self.clone();
                        self.$last_first.shrink(&mut |part| {
                            let mut whole = whole.clone();
                            whole.$last_first = part.clone();
                            fails(&whole)
                        });
                    )*
                }
            }

            fn show(&self) -> String {
                [$(self.$i.show()),*].join("\n    ")
            }
        }
    };
}
tuple!(A 0, B 1; 1, 0);
tuple!(A 0, B 1, C 2; 2, 1, 0);
tuple!(A 0, B 1, C 2, D 3; 3, 2, 1, 0);

/// The runs of bytes that are not as in `plain` (zero past its end), each with where it starts; a long one is cut.
fn runs(bytes: &[u8], plain: &[u8]) -> String {
    let differs = |i: usize| bytes[i] != plain.get(i).copied().unwrap_or(0);
    let mut text = String::new();
    let mut i = 0;
    while i < bytes.len() && text.len() < 4000 {
        if !differs(i) {
            i += 1;
            continue;
        }
        // a run goes on over up to seven bytes that are plain
        let mut end = i + 1;
        while (end..bytes.len().min(end + 8)).any(differs) {
            end += 1;
        }
        let hex: String = bytes[i..end]
            .iter()
            .take(LONGEST)
            .map(|b| format!("{b:02X}"))
            .collect();
        let cut = if end - i > LONGEST { ".." } else { "" };
        text += &format!("{}{i}: {hex}{cut}", if text.is_empty() { "" } else { ", " });
        i = end;
    }
    if i < bytes.len() {
        text += ", ..";
    }
    if text.is_empty() {
        text += "nothing else";
    }
    text
}
