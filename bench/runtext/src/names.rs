//! The registers by name, as document 000 calls them, shortened.

use crate::number;

/// First offset, bytes and name of every register a name is worth having for.
pub const REGISTERS: [(u16, u16, &str); 32] = [
    (0x000, 4, "system-address"),
    (0x004, 2, "block-size"),
    (0x006, 2, "block-count"),
    (0x008, 4, "argument"),
    (0x00C, 2, "mode"),
    (0x00E, 2, "command"),
    (0x010, 4, "response0"),
    (0x014, 4, "response1"),
    (0x018, 4, "response2"),
    (0x01C, 4, "response3"),
    (0x020, 4, "port"),
    (0x024, 4, "state"),
    (0x028, 1, "host"),
    (0x029, 1, "power"),
    (0x02A, 1, "gap"),
    (0x02B, 1, "wakeup"),
    (0x02C, 2, "clock"),
    (0x02E, 1, "timeout"),
    (0x02F, 1, "reset"),
    (0x030, 2, "status"),
    (0x032, 2, "error-status"),
    (0x034, 2, "enable"),
    (0x036, 2, "error-enable"),
    (0x038, 2, "signal"),
    (0x03A, 2, "error-signal"),
    (0x040, 8, "capabilities"),
    (0x048, 8, "currents"),
    (0x052, 2, "force"),
    (0x054, 1, "adma-error"),
    (0x058, 8, "adma-address"),
    (0x0FC, 2, "slot"),
    (0x0FE, 2, "version"),
];

/// The offset a word names: a register, a byte within one (`clock+1`), or an
/// offset in hex. A bare number is refused, since the paper's offsets are hex
/// and a reader would not see that `10` was taken as decimal.
pub fn offset(word: &str) -> Option<u16> {
    let (name, further) = word.split_once('+').unwrap_or((word, "0"));
    if let Some((first, ..)) = REGISTERS.iter().find(|register| register.2 == name) {
        return u16::try_from(number::read(further)?)
            .ok()?
            .checked_add(*first);
    }
    if !number::marked_hex(word) {
        return None;
    }
    u16::try_from(number::read(word)?).ok()
}

/// The name of the register an offset lies in, with the byte within it.
pub fn name(offset: u16) -> Option<String> {
    let (first, _, name) = REGISTERS
        .iter()
        .find(|(first, bytes, _)| (*first..first + bytes).contains(&offset))?;
    Some(match offset - first {
        0 => name.to_string(),
        further => format!("{name}+{further}"),
    })
}

/// The names of all registers an access reaches, or nothing where none has one.
pub fn reached(offset: u16, width: u8) -> Option<String> {
    let mut names: Vec<String> = name(offset).into_iter().collect();
    let further = offset.saturating_add(1)..offset.saturating_add(width as u16);
    let starting = REGISTERS
        .iter()
        .filter(|(first, ..)| further.contains(first));
    names.extend(starting.map(|(_, _, name)| name.to_string()));
    (!names.is_empty()).then(|| names.join(", "))
}

#[cfg(test)]
mod tests {
    use super::*;

    #[test]
    fn wide_accesses_reach_several() {
        assert_eq!(reached(0x00C, 4).as_deref(), Some("mode, command"));
        assert_eq!(reached(0x02D, 1).as_deref(), Some("clock+1"));
        assert_eq!(reached(0x02C, 4).as_deref(), Some("clock, timeout, reset"));
        assert_eq!(reached(0x050, 4).as_deref(), Some("force"));
        assert_eq!(reached(0x060, 4), None);
        assert_eq!(reached(0xFFFF, 255), None);
    }

    #[test]
    fn every_offset_with_a_name_is_found_by_it() {
        for place in 0..=0x1FF {
            if let Some(name) = name(place) {
                assert_eq!(offset(&name), Some(place), "{name}");
            }
        }
    }

    #[test]
    fn no_name_could_be_a_number() {
        for (_, _, name) in REGISTERS {
            assert_eq!(number::read(name), None, "{name}");
        }
    }

    #[test]
    fn offsets_must_show_that_they_are_hex() {
        assert_eq!(offset("02Ch"), Some(0x2C));
        assert_eq!(offset("0x2c"), Some(0x2C));
        for word in ["10", "2C", "clocks", "clock+", "10000h", "02Ch+1"] {
            assert_eq!(offset(word), None, "{word}");
        }
    }
}
