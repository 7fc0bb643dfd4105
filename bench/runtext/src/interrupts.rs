//! The interrupt bits by name, 030h at bits 15-0 and 032h at bits 31-16.

const NAMES: [(u32, &str); 20] = [
    (0, "Command Complete"),
    (1, "Transfer Complete"),
    (2, "Block Gap Event"),
    (3, "DMA Interrupt"),
    (4, "Buffer Write Ready"),
    (5, "Buffer Read Ready"),
    (6, "Card Insertion"),
    (7, "Card Removal"),
    (8, "Card Interrupt"),
    (15, "Error Interrupt"),
    (16, "Command Timeout"),
    (17, "Command CRC"),
    (18, "Command End Bit"),
    (19, "Command Index"),
    (20, "Data Timeout"),
    (21, "Data CRC"),
    (22, "Data End Bit"),
    (23, "Current Limit"),
    (24, "Auto CMD12"),
    (25, "ADMA Error"),
];

/// The name of one bit, for those that have one.
pub fn name(bit: u32) -> Option<&'static str> {
    let (_, name) = NAMES.iter().find(|(place, _)| *place == bit)?;
    Some(name)
}

/// The names of the bits that are 1, in rising order; `none` where none has one.
pub fn list(bits: u32) -> String {
    let standing: Vec<&str> = NAMES
        .iter()
        .filter(|(bit, _)| bits >> bit & 1 == 1)
        .map(|(_, name)| *name)
        .collect();
    if standing.is_empty() {
        return "none".to_string();
    }
    standing.join(", ")
}

#[cfg(test)]
mod tests {
    use super::*;

    #[test]
    fn bits_are_listed_by_name() {
        assert_eq!(list(0), "none");
        assert_eq!(list(3), "Command Complete, Transfer Complete");
        assert_eq!(list(0x0200_8000), "Error Interrupt, ADMA Error");
    }
}
