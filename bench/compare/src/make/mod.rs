//! The run files that are compared.

mod acts;
mod commands;
mod fate;
mod flaw;
mod malformed;
mod noise;
mod plan;
mod ride;
mod table;
mod transfer;
mod wild;

use crate::chance::Chance;
use flaw::Flaw;
use plan::Stock;
use reference::RunFile;
use ride::Ride;
use runtext::STEP_LIMIT;

pub use wild::any_step;

/// A run file made for a comparison, and what is wrong with its bytes.
#[derive(Clone, Debug, PartialEq, Eq)]
pub struct Made {
    pub file: RunFile,
    pub flaw: Flaw,
}

impl Made {
    /// The bytes of the file.
    pub fn bytes(&self) -> Vec<u8> {
        self.flaw.bytes(&self.file)
    }
}

/// One run file: the same for the same seed and number.
pub fn file(seed: u64, number: u64) -> Made {
    let mut chance = Chance::new(seed, number);
    if chance.one_in(5) {
        let limit = chance.between(20, 40) as usize;
        let file = good(&mut chance, limit);
        return malformed::malformed(&mut chance, file);
    }
    let limit = if chance.one_in(16) { 40 } else { STEP_LIMIT };
    Made {
        file: good(&mut chance, limit),
        flaw: Flaw::None,
    }
}

fn good(chance: &mut Chance, limit: usize) -> RunFile {
    match chance.below(10) {
        0 => wild::wild(chance, limit),
        1..=3 => {
            let stock = plan::soup(chance);
            planned(chance, stock, limit)
        }
        _ => {
            let stock = plan::tables(chance);
            planned(chance, stock, limit)
        }
    }
}

// A ride of transfers by plan, with other commands between.
fn planned(chance: &mut Chance, stock: Stock, limit: usize) -> RunFile {
    let mut ride = Ride::new(chance.branch(), stock.memory, stock.card, limit);
    while !ride.full() {
        match ride.chance.below(12) {
            0 => ride.noise(),
            1 => ride.short_command(),
            2 => ride.busy_command(),
            3 => ride.blind_command(),
            _ => {
                let plan = ride.chance.pick(&stock.plans);
                ride.transfer(&plan);
            }
        }
    }
    ride.done()
}

#[cfg(test)]
mod tests {
    use super::*;

    #[test]
    fn a_file_can_be_made_again() {
        for number in 0..20 {
            assert_eq!(file(1, number), file(1, number));
        }
    }

    #[test]
    fn files_are_mostly_good_and_sometimes_bad() {
        let bad = (0..400)
            .filter(|number| reference::parse(&file(1, *number).bytes()).is_none())
            .count();
        assert!((20..120).contains(&bad), "{bad}");
    }
}
