//! Columns of bytes in a line: two hexadecimal digits a byte, and `-` for none.

pub fn read(digits: &str) -> Option<Vec<u8>> {
    if digits == "-" {
        return Some(Vec::new());
    }
    if !digits.len().is_multiple_of(2) || !digits.bytes().all(|digit| digit.is_ascii_hexdigit()) {
        return None;
    }
    (0..digits.len())
        .step_by(2)
        .map(|at| u8::from_str_radix(&digits[at..at + 2], 16).ok())
        .collect()
}

/// The value types of a row: `-` stands for as many zeros as there are kinds.
pub fn read_types(digits: &str, kinds: &[u8]) -> Option<Vec<u8>> {
    match digits {
        "-" => Some(vec![0; kinds.len()]),
        digits => read(digits),
    }
}

pub fn written(bytes: &[u8]) -> String {
    if bytes.is_empty() {
        return "-".into();
    }
    bytes.iter().map(|byte| format!("{byte:02x}")).collect()
}
