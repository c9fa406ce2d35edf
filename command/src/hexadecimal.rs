//! Bytes as a person writes them.

/// The bytes of hexadecimal digits, two a byte, with blanks between bytes; or what is
/// wrong with them.
pub fn bytes(text: &str) -> Result<Vec<u8>, String> {
    let mut bytes = Vec::new();
    for part in text.split_whitespace() {
        let digits = digits(part)?;
        if digits.len() % 2 == 1 {
            return Err(format!("an odd number of digits in '{part}'"));
        }
        bytes.extend(digits.chunks_exact(2).map(|pair| 16 * pair[0] + pair[1]));
    }
    Ok(bytes)
}

/// Bytes as such a text, with a blank between two.
pub fn text(bytes: &[u8]) -> String {
    bytes.iter().map(|byte| format!("{byte:02X}")).collect::<Vec<_>>().join(" ")
}

fn digits(part: &str) -> Result<Vec<u8>, String> {
    let digit = |c: char| c.to_digit(16).ok_or(format!("'{c}' is no hexadecimal digit"));
    part.chars().map(|c| digit(c).map(|digit| digit as u8)).collect()
}
