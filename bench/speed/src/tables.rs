//! The tables that are printed.

use crate::clock::{best, Sample};
use crate::scene::{Way, BLOCK};
use crate::side::{Library, Reference};
use crate::steps::{self, Part};
use crate::{stack, transfers};

/// The blocks of the whole transfers in the first table.
const WHOLE: usize = 64;
/// The blocks of those in the second, and how often each is done in a round.
const LENGTHS: [(usize, usize); 4] = [(1, 640), (16, 40), (256, 3), (4_096, 1)];

/// Both sides of one row, in the order in which they are measured.
type Sides = [Sample; 2];

/// A row of single steps.
struct Row {
    name: &'static str,
    sides: Sides,
}

fn row(name: &'static str, sides: Sides) -> Row {
    Row { name, sides }
}

fn parts(way: Way, part: Part) -> Sides {
    [
        steps::part::<Library>(way, part),
        steps::part::<Reference>(way, part),
    ]
}

fn single_steps() -> Vec<Row> {
    vec![
        row(
            "register read, 024h/4",
            [
                steps::register_read::<Library>(),
                steps::register_read::<Reference>(),
            ],
        ),
        row(
            "register write, 008h/4",
            [
                steps::register_write::<Library>(),
                steps::register_write::<Reference>(),
            ],
        ),
        row(
            "acknowledgement, 030h/2",
            [
                steps::acknowledgement::<Library>(),
                steps::acknowledgement::<Reference>(),
            ],
        ),
        row("turn that fetches", parts(Way::Write, Part::Fetch)),
        row(
            "turn that moves 512 bytes, write",
            parts(Way::Write, Part::Move),
        ),
        row(
            "turn that moves 512 bytes, read",
            parts(Way::Read, Part::Move),
        ),
        row("block taken", parts(Way::Write, Part::Block)),
        row("block given", parts(Way::Read, Part::Block)),
        row(
            "survey of 4,096 lines",
            [steps::survey::<Library>(), steps::survey::<Reference>()],
        ),
    ]
}

/// Every step and the whole transfers of 64 blocks, in nanoseconds.
pub fn operations(rounds: usize) -> String {
    let mut text = "| operation | library, ns | reference, ns | library / reference | two plain copies, ns | library / copies | library, MB/s | reference, MB/s |\n|---|---|---|---|---|---|---|---|\n".to_string();
    for Row { name, mut sides } in single_steps() {
        let best = best(rounds, &mut sides);
        let (library, reference) = (best[0], best[1]);
        let ratio = library / reference;
        text.push_str(&format!(
            "| {name} | {library:.1} | {reference:.1} | {ratio:.2} | | | | |\n"
        ));
    }
    for way in [Way::Write, Way::Read] {
        text.push_str(&whole_row(way, rounds));
    }
    text
}

fn name(way: Way) -> &'static str {
    match way {
        Way::Write => "write",
        Way::Read => "read",
    }
}

// The library, the reference and two plain copies.
fn three(way: Way, blocks: usize, times: usize) -> [Sample; 3] {
    [
        transfers::transfers::<Library>(way, blocks, times),
        transfers::transfers::<Reference>(way, blocks, times),
        transfers::plain_copies(way, blocks, times),
    ]
}

fn whole_row(way: Way, rounds: usize) -> String {
    let best = best(rounds, &mut three(way, WHOLE, 20));
    let (library, reference, copies) = (best[0], best[1], best[2]);
    let rate = |took: f64| (WHOLE * BLOCK) as f64 * 1e3 / took;
    format!(
        "| whole {} of {WHOLE} blocks | {library:.0} | {reference:.0} | {:.2} | {copies:.0} | {:.2} | {:.0} | {:.0} |\n",
        name(way),
        library / reference,
        library / copies,
        rate(library),
        rate(reference),
    )
}

/// Whole transfers of more and more blocks: a block costs the same in each.
pub fn lengths(rounds: usize) -> String {
    let mut text = "| transfer | blocks | library, ns | per block | reference, ns | per block | two plain copies, ns | per block |\n|---|---|---|---|---|---|---|---|\n".to_string();
    for way in [Way::Write, Way::Read] {
        for (blocks, times) in LENGTHS {
            let best = best(rounds, &mut three(way, blocks, times));
            let shown = |took: &f64| format!(" {took:.0} | {:.1} |", took / blocks as f64);
            let columns: String = best.iter().map(shown).collect();
            text.push_str(&format!("| {} | {blocks} |{columns}\n", name(way)));
        }
    }
    text
}

/// What a slot and its steps need, in bytes.
pub fn sizes() -> String {
    let mut text = "| of the library | bytes |\n|---|---|\n".to_string();
    let record = size_of::<sdhc::Record>();
    let slot = size_of::<sdhc::Slot>();
    text.push_str(&format!("| the record of a slot | {record} |\n"));
    text.push_str(&format!("| a slot: its record and its buffer | {slot} |\n"));
    for used in stack::deepest() {
        let bytes = match used.bytes {
            Some(bytes) => bytes.to_string(),
            None => "not measured here".to_string(),
        };
        text.push_str(&format!("| stack of {} | {bytes} |\n", used.step));
    }
    text
}
