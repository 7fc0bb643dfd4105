//! Numbers as the paper writes them: hex with a trailing `h` or a leading `0x`,
//! else decimal.

/// The number a word stands for, or nothing if it is none or over 32 bits.
pub fn read(word: &str) -> Option<u32> {
    let word = word.to_ascii_lowercase();
    if let Some(digits) = word.strip_prefix("0x") {
        return in_base(digits, 16);
    }
    match word.strip_suffix('h') {
        Some(digits) => in_base(digits, 16),
        None => in_base(&word, 10),
    }
}

/// Says whether a word shows itself that it is hex; a bare `10` does not.
pub fn marked_hex(word: &str) -> bool {
    let word = word.to_ascii_lowercase();
    word.starts_with("0x") || word.ends_with('h')
}

/// A byte of memory or of the card: exactly two hex digits.
pub fn read_byte(word: &str) -> Option<u8> {
    let value = in_base(word, 16)?;
    (word.len() == 2).then_some(value as u8)
}

// The standard conversion also takes a sign, which no number here has.
fn in_base(digits: &str, base: u32) -> Option<u32> {
    if !digits.chars().all(|digit| digit.is_digit(base)) {
        return None;
    }
    u32::from_str_radix(digits, base).ok()
}

/// The number in the paper's way, so that `read` gives it back.
pub fn show(value: u32) -> String {
    if value < 10 {
        return value.to_string();
    }
    let digits = format!("{value:X}");
    let letter_first = digits.starts_with(|digit: char| digit.is_ascii_alphabetic());
    format!("{}{digits}h", if letter_first { "0" } else { "" })
}

#[cfg(test)]
mod tests {
    use super::*;

    #[test]
    fn hex_and_decimal_are_told_apart() {
        assert_eq!(read("10"), Some(10));
        assert_eq!(read("10h"), Some(16));
        assert_eq!(read("0x10"), Some(16));
        assert_eq!(read("0FFFFFFFFh"), Some(u32::MAX));
    }

    #[test]
    fn what_is_no_number_is_refused() {
        for word in [
            "",
            "h",
            "0x",
            "2C",
            "+5",
            "-1",
            "0x5h",
            "4294967296",
            "100000000h",
        ] {
            assert_eq!(read(word), None, "{word}");
        }
    }

    #[test]
    fn a_shown_number_reads_back() {
        for value in [0, 9, 10, 15, 16, 0x900, 0xA5, u32::MAX] {
            assert_eq!(read(&show(value)), Some(value));
        }
        assert_eq!(show(0x0F), "0Fh");
    }

    #[test]
    fn bytes_have_two_digits() {
        assert_eq!(read_byte("0a"), Some(10));
        for word in ["a", "00a", "1h", "+1"] {
            assert_eq!(read_byte(word), None, "{word}");
        }
    }
}
