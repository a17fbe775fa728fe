//! Bytes that people can read as text.

/// The text of bytes that are printable characters and at least one.
pub fn readable(bytes: &[u8]) -> Option<&str> {
    let text = std::str::from_utf8(bytes).ok()?;
    let printable = !text.is_empty() && !text.chars().any(char::is_control);
    printable.then_some(text)
}

#[cfg(test)]
mod tests {
    use super::readable;

    #[test]
    fn only_printable_text_is_readable() {
        assert_eq!(readable(b"Gearbox GX-7"), Some("Gearbox GX-7"));
        for other in [&b""[..], b"a\n", b"\xFF", &[0xE8, 3]] {
            assert_eq!(readable(other), None);
        }
    }
}
