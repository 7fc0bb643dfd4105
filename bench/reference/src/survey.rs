//! The survey: following a table over memory without a transfer, and the boot check on it.

use crate::answers::{accept_memory, Refusal, DONE};
use crate::counters::Bytes;
use crate::lines::{fetch, Act, EngineError};

/// The limit that 0 stands for.
const USUAL_LIMIT: u32 = 64;
/// The highest limit.
const HIGHEST_LIMIT: u32 = 4_096;

const WELL: u32 = 0;
const ERROR: u32 = 1;
const LIMIT: u32 = 2;

/// What a survey gives; all fields but the answer are 0 when it is refused.
#[derive(Clone, Copy, Debug, Default, PartialEq, Eq)]
pub struct Survey {
    pub answer: u32,
    /// 0 well, 1 error, 2 limit.
    pub kind: u32,
    /// The ADMA error byte the table would leave.
    pub state: u32,
    /// Lines tried, the failing one included.
    pub lines: u32,
    /// Bytes named by sound Tran lines.
    pub bytes: u32,
    /// The address after.
    pub after: u32,
}

/// The way so far: where the next line is, what is owed, what was met.
#[derive(Clone, Copy)]
struct Way {
    at: u32,
    owed: Bytes,
    lines: u32,
    bytes: u32,
}

impl Way {
    fn ends(self, kind: u32, state: u8) -> Survey {
        Survey {
            answer: DONE,
            kind,
            state: u32::from(state),
            lines: self.lines,
            bytes: self.bytes,
            after: self.at,
        }
    }
}

/// Follows the table at `start` with `owed` bytes to be named, for at most `limit` lines.
pub fn survey(memory: &[u8], start: u32, owed: u32, limit: u32) -> Survey {
    let refused = |refusal: Refusal| Survey {
        answer: refusal.number(),
        ..Survey::default()
    };
    if let Err(refusal) = accept_memory(memory) {
        return refused(refusal);
    }
    if limit > HIGHEST_LIMIT {
        return refused(Refusal::LimitTooHigh);
    }
    let way = Way {
        at: start & !3,
        owed: Bytes(owed),
        lines: 0,
        bytes: 0,
    };
    let allowed = if limit == 0 { USUAL_LIMIT } else { limit };
    follow(memory, way, allowed)
}

/// Follows the next line, and each further one with one line less allowed.
fn follow(memory: &[u8], way: Way, allowed: u32) -> Survey {
    let Some(allowed) = allowed.checked_sub(1) else {
        return way.ends(LIMIT, 0);
    };
    match try_line(memory, way) {
        Ok(further) => follow(memory, further, allowed),
        Err(ended) => ended,
    }
}

/// Tries one line: the way goes on after it, or the survey ends with it. Kept out of the
/// recursion, whose frames then stay small at the highest limit.
#[inline(never)]
fn try_line(memory: &[u8], way: Way) -> Result<Way, Survey> {
    let fetched = fetch(memory, way.at, way.owed, None);
    let mut way = Way {
        at: fetched.after,
        lines: way.lines.saturating_add(1),
        ..way
    };
    let line = fetched
        .line
        .map_err(|fault| way.ends(ERROR, fault.byte()))?;
    if line.act() == Act::Tran {
        way.owed = way.owed.less(line.length());
        way.bytes = way.bytes.saturating_add(line.length().0);
    }
    match (line.end(), way.owed) {
        (false, _) => Ok(way),
        (true, Bytes::NONE) => Err(way.ends(WELL, 0)),
        (true, _) => Err(way.ends(ERROR, EngineError::STILL_OWED.byte())),
    }
}

/// Whether a table is fit to boot from: the answer, and yes exactly when the survey ends well.
pub fn boot_check(memory: &[u8], start: u32, owed: u32) -> (u32, bool) {
    let found = survey(memory, start, owed, 0);
    (found.answer, found.answer == DONE && found.kind == WELL)
}
