//! Demand 3: two logs of the same writes in order and the same screens in order, merged otherwise, run on the port and on the Rust.
//! Where every fixed write has equally many screens before it in both, each write and each screen gets the same answer and the blocks
//! are the same, all four. And that the condition is needed: a screen moved over one fixed write, of each kind, leads elsewhere.

use crate::block;
use crate::both::{Both, By};
use crate::counts::{self, FIXED, count};
use crate::ctx::Ctx;
use crate::event::Event;
use crate::generate;
use crate::rng::Rng;
use crate::shrink::{Block, List};

pub fn run(ctx: &mut Ctx) {
    for _ in ctx.rounds(120) {
        let b = generate::start(&mut ctx.rng);
        let rest = generate::rest_of_command(&mut ctx.rng, &b);
        let mut log = vec![Event::Writes(rest)];
        log.extend(events(&mut ctx.rng));
        let chance = ctx.rng.next() as u32;
        ctx.try_on((Block(b), chance, List(log)), |(b, chance, log)| {
            pair(&b.0, *chance, &Log::of(&log.0))
        });
    }
    for (kind, n) in FIXED.iter().zip(counts::moved()) {
        ctx.check(n > 0, || {
            format!("no screen moved over {kind} changes anything")
        });
    }
}

/// Transfers with about the screens that they need, what uses a landed page or the live capture, and other writes between.
fn events(rng: &mut Rng) -> Vec<Event> {
    let pairs = [
        (0x0B, 0x0A),
        (0x15, 0x16),
        (0x15, 0x0A),
        (0x13, 0x17),
        (0x14, 0x17),
    ];
    let mut events = Vec::new();
    for _ in 0..rng.within(2, 5) {
        let (transfer, then) = rng.pick(&pairs);
        for (code, screens) in [(transfer, [2, 3, 3, 3, 4]), (then, [0, 0, 1, 1, 2])] {
            if rng.one_in(3) {
                events.push(Event::Writes(generate::writes(rng, 300)));
            }
            events.push(Event::Writes(generate::encode(&generate::command(
                rng, code, 1,
            ))));
            events.extend((0..rng.pick(&screens)).map(|_| Event::Screen(generate::screen(rng))));
        }
    }
    events
}

/// The writes of a log, and its screens, each with how many writes stand before it.
#[derive(Clone)]
struct Log {
    writes: Vec<u8>,
    screens: Vec<(usize, Vec<u8>)>,
}

/// All that a log is answered, the commands by the write that completes each, and the block after it.
#[derive(PartialEq)]
struct Outcome {
    commands: Vec<(usize, Vec<u8>)>,
    landings: Vec<u32>,
    block: Vec<u8>,
}

impl Log {
    fn of(events: &[Event]) -> Self {
        let (mut writes, mut screens) = (Vec::new(), Vec::new());
        for event in events {
            match event {
                Event::Writes(line) => writes.extend(line),
                Event::Screen(screen) => screens.push((writes.len(), screen.clone())),
            }
        }
        Log { writes, screens }
    }

    /// On the port and on the Rust, which must agree at every step.
    fn run(&self, b: &[u8], by: By) -> Result<Outcome, String> {
        let mut both = Both::load(b, 0);
        let (mut commands, mut landings) = (Vec::new(), Vec::new());
        let ends = self.screens.iter().map(|s| (s.0, Some(&s.1)));
        let mut from = 0;
        for (at, screen) in ends.chain([(self.writes.len(), None)]) {
            let told = both.line(&self.writes[from..at], by)?;
            commands.extend(told.into_iter().map(|(n, command)| (from + n, command)));
            from = at;
            if let Some(screen) = screen {
                landings.push(both.screen(screen)?);
            }
        }
        let block = both.ended()?;
        Ok(Outcome {
            commands,
            landings,
            block,
        })
    }

    /// Each screen anywhere between the fixed writes about it, often right beside one of them.
    fn merged_again(&self, fixed: &[usize], rng: &mut Rng) -> Log {
        let mut places: Vec<usize> = Vec::new();
        for (at, _) in &self.screens {
            let low = fixed.iter().rfind(|f| *f < at).map_or(0, |f| f + 1);
            let high = fixed
                .iter()
                .find(|f| *f >= at)
                .map_or(self.writes.len(), |f| *f);
            let any = rng.within(low, high);
            places.push(rng.pick(&[low, high, any, any]));
        }
        places.sort();
        let mut other = self.clone();
        other
            .screens
            .iter_mut()
            .zip(places)
            .for_each(|(s, at)| s.0 = at);
        other
    }

    /// The last screen before a fixed write comes right after it.
    fn moved_over(&self, fixed: usize) -> Option<Log> {
        let mut other = self.clone();
        other.screens.iter_mut().rfind(|s| s.0 <= fixed)?.0 = fixed + 1;
        Some(other)
    }
}

/// The kind of a fixed write by the command that it completes.
fn fixed_kind(command: &[u8]) -> Option<usize> {
    match (command[0] >> 3, command[1] & 3) {
        (0x0B, _) => Some(0),
        (0x15, _) => Some(1),
        (0x13, _) => Some(2),
        (0x14, _) => Some(3),
        (0x0A, _) => Some(4),
        (0x16, _) => Some(5),
        (0x17, 1) => Some(6),
        _ => None,
    }
}

fn pair(b: &[u8], chance: u32, log: &Log) -> Result<(), String> {
    let mut rng = Rng::new(chance.into(), "merged");
    // the public call takes each write alone, and a merged log is about lines
    let by = if rng.one_in(6) { By::Write } else { By::Play };
    let one = log.run(b, by)?;
    let kinds = one
        .commands
        .iter()
        .filter_map(|(at, c)| Some((*at, fixed_kind(c)?)));
    let kinds: Vec<(usize, usize)> = kinds.collect();
    let fixed: Vec<usize> = kinds.iter().map(|k| k.0).collect();
    let other = log.merged_again(&fixed, &mut rng);
    let two = other.run(b, by)?;
    if one.commands != two.commands || one.landings != two.landings {
        return Err("another merge gets other answers".into());
    }
    block::difference(&one.block, &two.block)?;
    count(|c| c.merged += 1);
    // the condition broken at one fixed write, at two of them in turn: port and Rust agree again, wherever it leads
    for _ in 0..kinds.len().min(2) {
        let (at, kind) = rng.pick(&kinds);
        if let Some(moved) = log.moved_over(at) {
            let led = moved.run(b, by)?;
            count(|c| c.moved[kind] += u64::from(led != one));
        }
    }
    Ok(())
}
