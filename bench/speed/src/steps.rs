//! Single steps. Accesses are done over and over on one slot; turns and blocks on a row of slots
//! that go through a transfer in step with each other, so that each phase of it is one kind of
//! step and can be timed apart.

use crate::clock::{each, Sample};
use crate::scene::{self, Block, Scene, Way, BLOCK, BLOCKS_PER_LINE};
use crate::side::Side;
use std::hint::black_box;
use std::time::{Duration, Instant};

/// Slots side by side: few enough to stay in the nearest cache.
const ROW: usize = 24;
/// Blocks of the transfer they go through.
const BLOCKS: usize = 64;
/// The most lines of a survey.
const LINES: usize = 4_096;

/// A read of 024h, four bytes.
pub fn register_read<S: Side + 'static>() -> Sample {
    let mut slot = scene::ready::<S>();
    each(20_000, move || {
        let slot = black_box(&mut slot);
        let (number, value) = slot.read4(black_box(0x24));
        black_box(value);
        number
    })
}

/// A write of 008h, four bytes.
pub fn register_write<S: Side + 'static>() -> Sample {
    let mut slot = scene::ready::<S>();
    each(20_000, move || {
        let slot = black_box(&mut slot);
        slot.write4(black_box(0x08), black_box(0x1234_5678)).0
    })
}

/// A slot with Command Complete standing, whose acknowledgement drops the line.
fn complete<S: Side>() -> S {
    let mut slot = scene::ready::<S>();
    let refused = slot.write4(0x0C, 0x0D1A_0000).0 | slot.respond().0;
    assert_eq!(refused, 0, "a command without data is answered");
    slot
}

/// A write of 030h, two bytes, that clears the one bit that stands.
pub fn acknowledgement<S: Side + 'static>() -> Sample {
    let standing = complete::<S>();
    let mut row = vec![standing.clone(); ROW];
    Box::new(move || {
        let mut took = Duration::ZERO;
        let rounds = 200;
        for _ in 0..rounds {
            row.fill(standing.clone());
            took += phase(&mut row, |slot| slot.write2(black_box(0x30), black_box(1)));
        }
        took.as_secs_f64() * 1e9 / (rounds * ROW) as f64
    })
}

/// A survey of 4,096 lines, all of them followed.
pub fn survey<S: Side + 'static>() -> Sample {
    let mut scene = Scene::many_lines(LINES);
    let owed = scene.bytes() as u32;
    each(20, move || {
        let found = S::survey(black_box(scene.memory()), owed, LINES as u32);
        let (number, kind, lines) = black_box(found);
        number | kind | u32::from(lines != LINES as u32)
    })
}

/// The steps of a transfer that are timed apart.
#[derive(Clone, Copy, Debug, PartialEq, Eq)]
pub enum Part {
    Fetch,
    Move,
    /// A block taken or given.
    Block,
}

/// What the three parts took together, each over its own count.
#[derive(Default)]
struct Parts {
    fetch: (Duration, usize),
    moves: (Duration, usize),
    block: (Duration, usize),
}

// One phase: the same step on every slot of the row.
fn phase<S>(row: &mut [S], mut step: impl FnMut(&mut S) -> (u32, u32)) -> Duration {
    let row = black_box(row);
    let mut refused = 0;
    let start = Instant::now();
    for slot in row.iter_mut() {
        refused |= step(slot).0;
    }
    let took = start.elapsed();
    assert_eq!(refused, 0, "a step that is timed was refused");
    took
}

impl Parts {
    fn add(&mut self, part: Part, took: Duration, times: usize) {
        let (sum, count) = match part {
            Part::Fetch => &mut self.fetch,
            Part::Move => &mut self.moves,
            Part::Block => &mut self.block,
        };
        *sum += took;
        *count += times;
    }

    fn nanoseconds(&self, part: Part) -> f64 {
        let (sum, count) = match part {
            Part::Fetch => self.fetch,
            Part::Move => self.moves,
            Part::Block => self.block,
        };
        sum.as_secs_f64() * 1e9 / count as f64
    }
}

// A whole transfer on every slot of the row, in step.
fn in_step<S: Side>(row: &mut [S], scene: &mut Scene, card: &mut Block, way: Way) -> Parts {
    let mut parts = Parts::default();
    let memory = scene.memory();
    phase(row, |slot| (scene::start(slot, way, BLOCKS), 0));
    for block in 0..BLOCKS {
        if block % BLOCKS_PER_LINE == 0 {
            let took = phase(row, |slot| slot.turn(memory));
            parts.add(Part::Fetch, took, row.len());
        }
        match way {
            Way::Write => {
                let took = phase(row, |slot| slot.turn(memory));
                parts.add(Part::Move, took, row.len());
                let took = phase(row, |slot| slot.taken(black_box(&mut card.0)));
                parts.add(Part::Block, took, row.len());
            }
            Way::Read => {
                let took = phase(row, |slot| slot.given(black_box(&card.0)));
                parts.add(Part::Block, took, row.len());
                let took = phase(row, |slot| slot.turn(memory));
                parts.add(Part::Move, took, row.len());
            }
        }
    }
    phase(row, |slot| (scene::finish(slot), 0));
    parts
}

/// One part of transfers that a row of slots goes through.
pub fn part<S: Side + 'static>(way: Way, part: Part) -> Sample {
    let mut row = vec![scene::ready::<S>(); ROW];
    let mut scene = Scene::new(BLOCKS);
    let mut card = Block([0x5A; BLOCK]);
    Box::new(move || in_step(&mut row, &mut scene, &mut card, way).nanoseconds(part))
}

#[cfg(test)]
mod tests {
    use super::*;
    use crate::scene::pattern;
    use crate::side::{Library, Reference};

    fn accesses<S: Side + 'static>() {
        for mut sample in [
            register_read::<S>(),
            register_write::<S>(),
            acknowledgement::<S>(),
            survey::<S>(),
        ] {
            assert!(sample() > 0.0);
        }
        let mut slot = complete::<S>();
        assert_eq!(slot.read4(0x30), (0, 1));
        assert_eq!(slot.read4(0xFC), (0, 0x0001_0001), "the line is up");
        assert_eq!(slot.write2(0x30, 1), (0, 0));
        assert_eq!(slot.read4(0x30), (0, 0));
        assert_eq!(slot.read4(0xFC), (0, 0x0001_0000), "the line is down");
    }

    fn parts<S: Side + 'static>() {
        for way in [Way::Write, Way::Read] {
            let mut row = vec![scene::ready::<S>(); 3];
            let mut scene = Scene::new(BLOCKS);
            let mut card = Block([0x5A; BLOCK]);
            let parts = in_step(&mut row, &mut scene, &mut card, way);
            assert_eq!(parts.fetch.1, 3 * BLOCKS / BLOCKS_PER_LINE);
            assert_eq!((parts.moves.1, parts.block.1), (3 * BLOCKS, 3 * BLOCKS));
            let last = (BLOCKS - 1) * BLOCK;
            let expected: Vec<u8> = (last..last + BLOCK).map(pattern).collect();
            let arrived = match way {
                Way::Write => card.0[..] == expected[..],
                Way::Read => scene.moved().iter().all(|byte| *byte == 0x5A),
            };
            assert!(arrived, "{way:?}");
        }
    }

    #[test]
    fn the_library_s_steps_do_what_they_say() {
        accesses::<Library>();
        parts::<Library>();
    }

    #[test]
    fn the_reference_s_steps_do_what_they_say() {
        accesses::<Reference>();
        parts::<Reference>();
    }
}
