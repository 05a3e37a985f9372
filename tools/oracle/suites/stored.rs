//! The stored list of the Rust's answers, line by line, against what the Rust at hand answers, and that nothing is missing from it.

use crate::ctx::Ctx;
use crate::stored;

const STORED: &str = include_str!("../../../crates/test_stored/stdout");

pub fn run(ctx: &mut Ctx) {
    let (list, tally) = stored::list();
    for (stored, rust) in STORED.lines().zip(list.lines()) {
        ctx.check(stored == rust, || {
            format!("stored {stored}\n    the Rust {rust}\n    tools/oracle/run --stored makes the list anew")
        });
    }
    ctx.check(STORED == list, || "the stored list is longer or shorter".into());
    ctx.check(tally.commands.iter().all(|n| *n > 0), || "a code is never carried out".into());
    ctx.check(tally.landings.iter().all(|n| *n > 0), || "a kind never lands".into());
    ctx.note(format!(
        "{} writes, {} commands, {} screens, landings by kind {:?}, {} looks",
        tally.writes,
        tally.commands.iter().sum::<usize>(),
        tally.screens,
        tally.landings,
        tally.looks
    ));
}
