//! The two sections of plain bytes, memory and card, and their lines.

use crate::number;

/// Bytes gathered from the lines of one section.
pub struct Section {
    name: &'static str,
    limit: usize,
    bytes: Vec<u8>,
}

const FORMS: &str = "bytes of two hex digits, `zeros N`, `count N`, or `at ADDRESS` before one";

impl Section {
    /// An empty section; `limit` is the most its count may say.
    pub fn new(name: &'static str, limit: usize) -> Section {
        Section {
            name,
            limit,
            bytes: Vec::new(),
        }
    }

    /// All bytes gathered.
    pub fn done(self) -> Vec<u8> {
        self.bytes
    }

    /// Takes the words of one line after the section's name. Without `at` the
    /// bytes follow what is there; with it a gap before them is zeros.
    pub fn add(&mut self, words: &[&str]) -> Result<(), String> {
        let (start, words) = match words {
            ["at", address, rest @ ..] => (self.amount(address, "an address")?, rest),
            _ => (self.bytes.len(), words),
        };
        let bytes = match words {
            [] => return Err(format!("expected {FORMS}")),
            ["zeros", count] => vec![0; self.amount(count, "a count")?],
            ["count", count] => (0..self.amount(count, "a count")?)
                .map(|place| place as u8)
                .collect(),
            _ => plain(words)?,
        };
        self.place(start, &bytes)
    }

    // Judged before anything is made of that size: a slip of the hand must not
    // ask for gigabytes.
    fn amount(&self, word: &str, what: &str) -> Result<usize, String> {
        let value = number::read(word).ok_or(format!("expected {what}, found `{word}`"))?;
        if value as usize > self.limit {
            return Err(self.over());
        }
        Ok(value as usize)
    }

    fn place(&mut self, start: usize, bytes: &[u8]) -> Result<(), String> {
        let end = start + bytes.len();
        if end > self.limit {
            return Err(self.over());
        }
        if self.bytes.len() < end {
            self.bytes.resize(end, 0);
        }
        self.bytes[start..end].copy_from_slice(bytes);
        Ok(())
    }

    fn over(&self) -> String {
        format!("expected at most {} bytes of {}", self.limit, self.name)
    }
}

fn plain(words: &[&str]) -> Result<Vec<u8>, String> {
    words
        .iter()
        .map(|word| number::read_byte(word).ok_or(format!("expected {FORMS}, found `{word}`")))
        .collect()
}

#[cfg(test)]
mod tests {
    use super::*;

    fn gathered(lines: &[&str]) -> Result<Vec<u8>, String> {
        let mut section = Section::new("memory", 32);
        for line in lines {
            section.add(&line.split_whitespace().collect::<Vec<_>>())?;
        }
        Ok(section.done())
    }

    #[test]
    fn lines_are_joined() {
        assert_eq!(
            gathered(&["01 02", "zeros 2", "ff"]).unwrap(),
            [1, 2, 0, 0, 255]
        );
        assert_eq!(gathered(&["count 3"]).unwrap(), [0, 1, 2]);
    }

    #[test]
    fn a_place_can_be_named() {
        assert_eq!(gathered(&["at 3 aa", "bb"]).unwrap(), [0, 0, 0, 0xAA, 0xBB]);
        assert_eq!(
            gathered(&["01 02 03", "at 1h ff"]).unwrap(),
            [1, 0xFF, 3],
            "inside what is there"
        );
    }

    #[test]
    fn the_limit_holds() {
        assert_eq!(gathered(&["zeros 32"]).unwrap().len(), 32);
        for line in ["zeros 33", "at 32 01", "zeros 0FFFFFFFFh"] {
            assert!(gathered(&[line]).unwrap_err().contains("at most 32"));
        }
    }

    #[test]
    fn a_wrong_word_is_named() {
        assert!(gathered(&["01 2"]).unwrap_err().contains("`2`"));
        assert!(gathered(&[""]).unwrap_err().contains("zeros N"));
        assert!(gathered(&["zeros"]).is_err());
    }
}
