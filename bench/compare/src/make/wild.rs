//! Files without a plan: accesses of all widths, offsets and values, and events
//! at any time.

use super::ride::Ride;
use crate::chance::Chance;
use reference::{RunFile, Step};
use runtext::kinds;

/// A file of accesses and events by chance alone.
pub fn wild(chance: &mut Chance, limit: usize) -> RunFile {
    let length = chance.below(200) as usize;
    let (memory, card) = (chance.bytes(length), chance.bytes(length));
    let mut ride = Ride::new(chance.branch(), memory, card, limit);
    if ride.chance.bit() {
        ride.get_ready();
    }
    while !ride.full() {
        match ride.chance.below(8) {
            0 => {
                let step = any_step(&mut ride.chance);
                ride.take(step);
            }
            1 => ride.noise(),
            2 | 3 => {
                let step = any_access(&mut ride.chance);
                ride.take(step);
            }
            _ => ride.wild_access(),
        }
    }
    ride.done()
}

fn any_access(chance: &mut Chance) -> Step {
    let width = chance.pick(&[0, 1, 1, 2, 2, 3, 4, 4, 5, 8, 16, 255]);
    let offset = match chance.below(4) {
        0 => chance.below(65_536),
        1 => chance.between(0xF8, 0x104),
        _ => chance.below(256),
    };
    if chance.one_in(3) {
        return kinds::read(offset as u16, width);
    }
    kinds::write(offset as u16, width, chance.word())
}

/// A good step of any kind; those with a detail get any that is good.
pub fn any_step(chance: &mut Chance) -> Step {
    let detail = chance.pick(&[0, 0, 0, 1, 2, 3, 4, 5, 255]);
    match chance.below(11) as u8 {
        kinds::WRITE | kinds::READ => any_access(chance),
        kinds::RESPONSE => kinds::response(detail, [(); 4].map(|()| chance.word())),
        kinds::DATA_ERROR => kinds::detailed(kinds::DATA_ERROR, detail),
        kinds::LEVEL => kinds::detailed(kinds::LEVEL, detail & 1),
        kind => kinds::plain(kind),
    }
}
