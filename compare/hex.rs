//! Bytes as hexadecimal text, and back.

/// The bytes of a text of hexadecimal digits, two for each byte. Between bytes there may be
/// blanks, and `#` begins a comment that goes to the end of its line. None where anything else
/// stands in the text.
pub fn bytes_in(text: &str) -> Option<Vec<u8>> {
    let mut bytes = Vec::new();
    for line in text.lines() {
        let (code, _) = line.split_once('#').unwrap_or((line, ""));
        for word in code.split_whitespace() {
            bytes.extend(bytes_of_word(word)?);
        }
    }
    Some(bytes)
}

/// The bytes of digits without blanks.
fn bytes_of_word(word: &str) -> Option<Vec<u8>> {
    let digits: Option<Vec<u32>> = word.chars().map(|c| c.to_digit(16)).collect();
    let pairs = digits.filter(|all| all.len() % 2 == 0)?;
    Some(
        pairs
            .chunks(2)
            .map(|pair| (pair[0] * 16 + pair[1]) as u8)
            .collect(),
    )
}

/// The digits of bytes, with blanks between them.
pub fn hex(bytes: &[u8]) -> String {
    let all: Vec<String> = bytes.iter().map(|byte| format!("{:02x}", byte)).collect();
    all.join(" ")
}
