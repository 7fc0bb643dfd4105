//! Whole transfers, and two plain copies of the same blocks beside them.

use crate::clock::{each, Sample};
use crate::scene::{self, Block, Scene, Way, BLOCK, BLOCKS_PER_LINE};
use crate::side::Side;
use std::hint::black_box;

/// One whole transfer with its accesses: a turn that fetches for each line, and for each block a
/// turn that moves it and the card's part. The card's side is one block, given or taken anew.
#[inline(always)]
fn whole<S: Side>(slot: &mut S, scene: &mut Scene, card: &mut Block, way: Way) -> u32 {
    let blocks = scene.blocks;
    let memory = scene.memory();
    let mut refused = scene::start(slot, way, blocks);
    for block in 0..blocks {
        if block % BLOCKS_PER_LINE == 0 {
            refused |= slot.turn(memory).0;
        }
        match way {
            Way::Write => {
                refused |= slot.turn(memory).0;
                refused |= slot.taken(black_box(&mut card.0)).0;
            }
            Way::Read => {
                refused |= slot.given(black_box(&card.0)).0;
                refused |= slot.turn(memory).0;
            }
        }
    }
    refused | scene::finish(slot)
}

/// The same blocks copied twice: memory to a buffer to the card's block, or the other way.
#[inline(always)]
fn copies(scene: &mut Scene, buffer: &mut Block, card: &mut Block, way: Way) -> u32 {
    for block in scene.moved().chunks_exact_mut(BLOCK) {
        match way {
            Way::Write => {
                buffer.0.copy_from_slice(black_box(block));
                card.0.copy_from_slice(black_box(&buffer.0));
                black_box(&mut card.0);
            }
            Way::Read => {
                buffer.0.copy_from_slice(black_box(&card.0));
                block.copy_from_slice(black_box(&buffer.0));
                black_box(block);
            }
        }
    }
    0
}

/// Whole transfers of so many blocks by one side.
pub fn transfers<S: Side + 'static>(way: Way, blocks: usize, times: usize) -> Sample {
    let mut slot = scene::ready::<S>();
    let mut scene = Scene::new(blocks);
    let mut card = Block([0x5A; BLOCK]);
    each(times, move || {
        whole(black_box(&mut slot), &mut scene, &mut card, way)
    })
}

/// Two plain copies of so many blocks.
pub fn plain_copies(way: Way, blocks: usize, times: usize) -> Sample {
    let mut scene = Scene::new(blocks);
    let mut buffer = Block([0; BLOCK]);
    let mut card = Block([0x5A; BLOCK]);
    each(times, move || {
        copies(black_box(&mut scene), &mut buffer, &mut card, way)
    })
}

#[cfg(test)]
mod tests {
    use super::*;
    use crate::scene::pattern;
    use crate::side::{Library, Reference};

    // Every block of a write is seen as it is taken, so the last one stands in the room.
    fn written<S: Side>(blocks: usize) {
        let mut slot = scene::ready::<S>();
        let mut scene = Scene::new(blocks);
        let memory = scene.memory().to_vec();
        let mut card = Block([0; BLOCK]);
        assert_eq!(whole(&mut slot, &mut scene, &mut card, Way::Write), 0);
        let last = (blocks - 1) * BLOCK;
        let expected: Vec<u8> = (last..last + BLOCK).map(pattern).collect();
        assert_eq!(card.0[..], expected[..]);
        assert_eq!(scene.memory(), memory);
        assert_eq!(slot.read4(0x24), (0, 0x01FF_0000), "DAT is free again");
    }

    fn read<S: Side>(blocks: usize) {
        let mut slot = scene::ready::<S>();
        let mut scene = Scene::new(blocks);
        let mut card = Block([0x5A; BLOCK]);
        for (place, byte) in card.0.iter_mut().enumerate() {
            *byte ^= pattern(3 * place);
        }
        assert_eq!(whole(&mut slot, &mut scene, &mut card, Way::Read), 0);
        for block in scene.moved().chunks(BLOCK) {
            assert_eq!(block, card.0);
        }
        assert_eq!(slot.read4(0x24), (0, 0x01FF_0000), "DAT is free again");
    }

    #[test]
    fn whole_transfers_move_their_bytes() {
        for blocks in [1, 16, 64, 67] {
            written::<Library>(blocks);
            written::<Reference>(blocks);
            read::<Library>(blocks);
            read::<Reference>(blocks);
        }
    }

    #[test]
    fn the_copies_move_the_same_bytes() {
        let mut scene = Scene::new(16);
        let mut buffer = Block([0; BLOCK]);
        let mut card = buffer.clone();
        copies(&mut scene, &mut buffer, &mut card, Way::Write);
        let expected: Vec<u8> = (15 * BLOCK..16 * BLOCK).map(pattern).collect();
        assert_eq!(card.0[..], expected[..]);
        copies(&mut scene, &mut buffer, &mut card, Way::Read);
        for block in scene.moved().chunks(BLOCK) {
            assert_eq!(block, card.0);
        }
    }
}
