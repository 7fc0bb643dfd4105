//! On what it ran: said with the numbers, which mean nothing without it.

use std::fs;
use std::thread;

/// The processor by its own name, and how many of its cores there are.
pub fn words() -> String {
    let cores = thread::available_parallelism().map_or(1, usize::from);
    let listed = fs::read_to_string("/proc/cpuinfo").unwrap_or_default();
    format!("{}, {cores} cores", model(&listed))
}

fn model(listed: &str) -> &str {
    listed
        .lines()
        .filter(|line| line.starts_with("model name"))
        .find_map(|line| line.split_once(':'))
        .map_or("a processor without a name", |(_, name)| name.trim())
}

#[cfg(test)]
mod tests {
    use super::*;

    #[test]
    fn the_processor_s_own_name_is_taken() {
        let listed = "processor : 0\nmodel : 7\nmodel name\t: One of Many\nmodel name\t: Other\n";
        assert_eq!(model(listed), "One of Many");
        assert_eq!(model(""), "a processor without a name");
        assert!(words().ends_with(" cores"));
    }
}
