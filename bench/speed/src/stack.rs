//! How much stack a step of the library uses. The step runs on a stack that was painted before;
//! the lowest byte that is no longer paint is its high-water mark.

use crate::scene::{self, Block, Scene, Way, BLOCK};
use crate::side::{Library, Side};
use sdhc::{Answer, Response};

/// Far more than any step needs.
const STACK: usize = 1 << 20;

/// Bytes of stack of one step, or nothing where this machine's stack cannot be painted.
pub struct Used {
    pub step: &'static str,
    pub bytes: Option<usize>,
}

/// The steps that go deepest.
pub fn deepest() -> Vec<Used> {
    let mut slot = scene::ready::<Library>();
    let mut scene = Scene::new(1);
    let memory = scene.memory();
    let mut card = Block([0x5A; BLOCK]);
    let mut survey = Scene::many_lines(4_096);
    let owed = survey.bytes() as u32;
    let set_up = slot.write4(0x04, 0x0001_0200).0 | slot.write4(0x58, 0).0;
    assert_eq!(set_up, 0, "the transfer is set up");
    let write = used("a write that issues", &mut || {
        slot.write4(0x0C, scene::command(Way::Write)).0
    });
    assert!(slot.respond(Response::Good, [0; 4]).done());
    let fetch = used("a turn that fetches", &mut || number(slot.turn(memory)));
    let moves = used("a turn that moves 512 bytes", &mut || {
        number(slot.turn(memory))
    });
    let taken = used("a block taken", &mut || number(slot.taken(&mut card.0)));
    let followed = used("a survey of 4,096 lines", &mut || {
        let (number, kind, _) = Library::survey(survey.memory(), owed, 4_096);
        number | kind
    });
    vec![write, fetch, moves, taken, followed]
}

fn number(answer: Answer) -> u32 {
    answer.number as u32
}

// What the step uses beyond a step that does nothing.
fn used(step: &'static str, act: &mut dyn FnMut() -> u32) -> Used {
    let nothing = mark(&mut || 0);
    let bytes = mark(act).zip(nothing).map(|(mark, own)| mark - own);
    Used { step, bytes }
}

fn paint(place: usize) -> u8 {
    (place.wrapping_mul(31) >> 3) as u8 | 1
}

fn mark(act: &mut dyn FnMut() -> u32) -> Option<usize> {
    let mut stack: Vec<u8> = (0..STACK).map(paint).collect();
    let refused = on_stack(&mut stack, act)?;
    assert_eq!(refused, 0, "a step whose stack is measured was refused");
    let kept = stack.iter().enumerate();
    let lowest = kept.take_while(|(place, byte)| **byte == paint(*place));
    Some(STACK - lowest.count())
}

/// Runs an act on a stack of its own.
#[cfg(target_arch = "x86_64")]
fn on_stack(stack: &mut [u8], act: &mut dyn FnMut() -> u32) -> Option<u32> {
    struct Call<'a> {
        act: &'a mut dyn FnMut() -> u32,
        refused: u32,
    }
    extern "C" fn enter(call: &mut Call) {
        call.refused = (call.act)();
    }
    let mut call = Call { act, refused: 0 };
    let top = stack.as_mut_ptr_range().end;
    // A call wants the stack at a multiple of 16.
    let top = top.wrapping_sub(top as usize % 16);
    // The one register that a call keeps holds the old stack meanwhile.
    unsafe {
        std::arch::asm!(
            "mov r12, rsp",
            "mov rsp, {top}",
            "call {enter}",
            "mov rsp, r12",
            top = in(reg) top,
            enter = in(reg) enter as extern "C" fn(&mut Call),
            in("rdi") &mut call,
            out("r12") _,
            clobber_abi("C"),
        );
    }
    Some(call.refused)
}

#[cfg(not(target_arch = "x86_64"))]
fn on_stack(_stack: &mut [u8], _act: &mut dyn FnMut() -> u32) -> Option<u32> {
    None
}

#[cfg(test)]
mod tests {
    use super::*;
    use std::hint::black_box;

    #[inline(never)]
    fn deep(bytes: &mut [u8; 4_096]) -> u32 {
        bytes.fill(black_box(0));
        u32::from(black_box(bytes)[17])
    }

    #[test]
    #[cfg(target_arch = "x86_64")]
    fn what_is_used_is_seen() {
        let all = used("all", &mut || deep(&mut [1; 4_096]));
        let bytes = all.bytes.unwrap();
        assert!((4_096..16_384).contains(&bytes), "{bytes}");
        assert_eq!(used("none", &mut || 0).bytes, Some(0));
    }

    #[test]
    fn the_deepest_steps_are_done() {
        assert_eq!(deepest().len(), 5);
    }
}
