//! The jobs, in the order in which they run. A new file is a line in each of the two lists.

use crate::Table;

mod check;
mod picture;
mod screen;
mod state;
mod verdict;
mod whole;
mod writes;

pub fn all() -> Vec<Table> {
    let beside_the_rust = [
        writes::jobs(),
        screen::jobs(),
        picture::jobs(),
        state::jobs(),
        whole::jobs(),
    ];
    vec![
        Table {
            heading: "job | ours, us | the Rust, us",
            units: 1.0,
            jobs: beside_the_rust.into_iter().flatten().collect(),
        },
        Table {
            heading: "check of a block, damaged and before | refused, ns | valid, ns",
            units: 1000.0,
            jobs: check::jobs(),
        },
        Table {
            heading: "a state, and as many bytes by a table | ours, us | by a table, us",
            units: 1.0,
            jobs: state::beside_a_look_up(),
        },
        Table {
            heading: "verdict of a command that announces items | many packets, ns | one packet, ns",
            units: 1000.0,
            jobs: verdict::jobs(),
        },
    ]
}
