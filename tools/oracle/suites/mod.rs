//! The suites, in the order in which they run. A new one is a file beside this one and a line here.

use crate::ctx::Ctx;

#[derive(Clone, Copy)]
pub struct Suite {
    pub name: &'static str,
    pub run: fn(&mut Ctx),
    /// A long run has so many shares of it, each of another seed, and each so many times as long as in the gate.
    pub shares: u64,
    pub scale: usize,
}

macro_rules! suites {
    ($($name:ident $shares:literal * $scale:literal,)*) => {
        $(mod $name;)*
        pub const ALL: &[Suite] = &[$(Suite {
            name: stringify!($name),
            run: $name::run,
            shares: $shares,
            scale: $scale,
        },)*];
    };
}

// the longest first, so that no processor is left with one at the end
suites! {
    unit 4 * 1,
    receiver 1 * 4,
    broken 2 * 20,
    states 4 * 6,
    oracle 2 * 3,
    pages 2 * 10,
    leaves 1 * 1,
    verdict 4 * 1,
    commands 4 * 10,
    picture 4 * 15,
    views 4 * 5,
    play 10 * 15,
    merged 4 * 6,
    stored 1 * 1,
}
