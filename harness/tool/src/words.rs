//! Numbers and sentences in plain words.

/// So many of something: `1 byte`, `2 bytes`.
pub fn counted(number: impl Into<u64>, one: &str) -> String {
    match number.into() {
        1 => format!("1 {one}"),
        number => format!("{number} {one}s"),
    }
}

/// Bytes as they stand in replies.
pub fn bytes(number: usize) -> String {
    counted(number as u64, "byte")
}

/// A number with commas between thousands.
pub fn grouped(number: usize) -> String {
    let digits = number.to_string();
    let mut text = String::new();
    for (n, digit) in digits.chars().enumerate() {
        if n > 0 && (digits.len() - n).is_multiple_of(3) {
            text.push(',');
        }
        text.push(digit);
    }
    text
}

/// Tenths of a cent as cents: `1,234.5`.
pub fn cents(tenths: u32) -> String {
    format!("{}.{}", grouped(tenths as usize / 10), tenths % 10)
}

/// With a capital and a full stop.
pub fn sentence(words: &str) -> String {
    let mut letters = words.chars();
    letters.next().map(|first| format!("{}{}.", first.to_uppercase(), letters.as_str())).unwrap_or_default()
}
