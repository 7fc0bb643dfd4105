//! Why a run file is bad, for people; the run program only says that it is.

use crate::reader::{CARD_LIMIT, MEMORY_LIMIT, STEP_LIMIT};
use crate::{layout, writer};

/// The first reason found to call a file bad, for one the reference refused.
pub fn why(bytes: &[u8]) -> String {
    let Some(file) = layout(bytes) else {
        return "its counts do not fit its length".to_string();
    };
    let counts = [
        ("memory bytes", file.memory.len(), MEMORY_LIMIT),
        ("steps", file.steps.len(), STEP_LIMIT),
        ("card bytes", file.card.len(), CARD_LIMIT),
    ];
    for (what, count, limit) in counts {
        if count > limit {
            return format!("{count} {what}, the limit is {limit}");
        }
    }
    // Steps with a bad kind or field are just those without a friendly line.
    let lines = file.steps.iter().map(writer::step_text);
    match lines.enumerate().find(|(_, line)| line.starts_with("raw")) {
        Some((place, line)) => {
            format!("step {place} has a kind or field that may not be: {line}")
        }
        None => "no reason found".to_string(),
    }
}

#[cfg(test)]
mod tests {
    use super::*;
    use crate::kinds;
    use reference::RunFile;

    #[test]
    fn the_reason_is_named() {
        let mut file = RunFile {
            memory: vec![0; MEMORY_LIMIT + 1],
            steps: vec![kinds::plain(kinds::IN), kinds::plain(11)],
            card: Vec::new(),
        };
        assert!(why(&[]).contains("counts"));
        assert!(why(&reference::encode(&file)).contains("32769 memory bytes"));
        file.memory.clear();
        assert!(why(&reference::encode(&file)).contains("step 1"));
    }
}
