//! Options of the programs that take one value each.

/// The word after an option.
pub fn word_after(option: &str) -> Option<String> {
    std::env::args().skip_while(|word| word != option).nth(1)
}

/// The number after an option, or the default.
pub fn number_after(option: &str, default: u64) -> u64 {
    word_after(option).and_then(|word| word.parse().ok()).unwrap_or(default)
}
