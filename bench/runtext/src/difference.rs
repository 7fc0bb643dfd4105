//! Where two output texts part.

/// The first place at which two outputs differ.
#[derive(Clone, Debug, PartialEq, Eq)]
pub struct Difference {
    /// The step whose line it is; nothing for the line before the steps.
    pub step: Option<usize>,
    /// The line expected, nothing where that output ends before it.
    pub expected: Option<String>,
    /// The line given, nothing where that output ends before it.
    pub given: Option<String>,
}

/// The first difference of two outputs, to the byte: a missing last newline is
/// one as well.
pub fn first(expected: &str, given: &str) -> Option<Difference> {
    if expected == given {
        return None;
    }
    let (mut left, mut right) = (expected.split('\n'), given.split('\n'));
    let mut line = 0;
    loop {
        let (expected, given) = (left.next(), right.next());
        if expected != given || expected.is_none() {
            return Some(Difference {
                step: usize::checked_sub(line, 1),
                expected: expected.map(str::to_string),
                given: given.map(str::to_string),
            });
        }
        line += 1;
    }
}

impl Difference {
    /// Both lines under each other, with the names of the two sides.
    pub fn words(&self, expecting: &str, giving: &str) -> String {
        let place = match self.step {
            Some(step) => format!("at step {step}"),
            None => "in the first line".to_string(),
        };
        format!(
            "first difference {place}\n  {expecting}: {}\n  {giving}: {}\n",
            shown(&self.expected),
            shown(&self.given)
        )
    }
}

fn shown(line: &Option<String>) -> String {
    match line {
        None => "(output ended without a newline)".to_string(),
        Some(line) if line.is_empty() => "(end of output)".to_string(),
        Some(line) => format!("{:?}", line),
    }
}

#[cfg(test)]
mod tests {
    use super::*;

    #[test]
    fn equal_outputs_have_none() {
        assert_eq!(first("steps 0\n", "steps 0\n"), None);
    }

    #[test]
    fn the_step_is_named() {
        let difference = first("steps 2\na\nb\n", "steps 2\na\nc\n").unwrap();
        assert_eq!(difference.step, Some(1));
        assert_eq!(difference.expected.as_deref(), Some("b"));
        assert_eq!(difference.given.as_deref(), Some("c"));
    }

    #[test]
    fn a_shorter_output_differs() {
        let difference = first("steps 1\na\n", "steps 1\n").unwrap();
        assert_eq!(difference.step, Some(0));
        assert_eq!(difference.given.as_deref(), Some(""));
        assert!(difference.words("x", "y").contains("(end of output)"));
    }

    #[test]
    fn the_last_newline_counts() {
        let difference = first("bad file\n", "bad file").unwrap();
        assert_eq!(difference.given, None);
        assert_eq!(first("steps 1\n", "bad file\n").unwrap().step, None);
    }
}
