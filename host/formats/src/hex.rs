//! Bytes as hexadecimal text.

/// Upper-case pairs with a blank between them.
pub fn spaced(bytes: &[u8]) -> String {
    let pairs: Vec<String> = bytes.iter().map(|byte| format!("{byte:02X}")).collect();
    pairs.join(" ")
}

/// The first bytes, and how many there are where that is not all.
pub fn shortened(bytes: &[u8], most: usize) -> String {
    if bytes.len() <= most {
        return spaced(bytes);
    }
    format!("{} .. {} bytes", spaced(&bytes[..most]), bytes.len())
}

/// Why a text is no bytes: at which character, counted from 0.
#[derive(Debug, PartialEq, Eq)]
pub enum HexError {
    NoDigit { at: usize, found: char },
    HalfByte { at: usize },
}

impl std::fmt::Display for HexError {
    fn fmt(&self, f: &mut std::fmt::Formatter) -> std::fmt::Result {
        match self {
            HexError::NoDigit { found, .. } => {
                write!(f, "expected pairs of hexadecimal digits, found '{found}'")
            }
            HexError::HalfByte { .. } => {
                write!(f, "expected a second hexadecimal digit: each byte has two")
            }
        }
    }
}

impl HexError {
    pub fn at(&self) -> usize {
        match *self {
            HexError::NoDigit { at, .. } | HexError::HalfByte { at } => at,
        }
    }
}

/// Pairs of digits, with or without blanks between the pairs.
pub fn parse(text: &str) -> Result<Vec<u8>, HexError> {
    let mut bytes = Vec::new();
    let mut high = None;
    let mut end = 0;
    for (at, found) in text.chars().enumerate() {
        end = at + 1;
        match (found.to_digit(16), high) {
            (Some(digit), None) => high = Some(digit),
            (Some(digit), Some(first)) => {
                bytes.push((first << 4 | digit) as u8);
                high = None;
            }
            (None, None) if found.is_whitespace() => {}
            (None, Some(_)) if found.is_whitespace() => return Err(HexError::HalfByte { at }),
            (None, _) => return Err(HexError::NoDigit { at, found }),
        }
    }
    match high {
        Some(_) => Err(HexError::HalfByte { at: end }),
        None => Ok(bytes),
    }
}

#[cfg(test)]
mod tests {
    use super::*;

    #[test]
    fn what_is_written_is_read() {
        let bytes: Vec<u8> = (0..=255).collect();
        assert_eq!(parse(&spaced(&bytes)), Ok(bytes));
        assert_eq!(parse("d00700 00"), Ok(vec![0xD0, 7, 0, 0]));
        assert_eq!(parse(""), Ok(vec![]));
    }

    #[test]
    fn faults_are_named_by_place() {
        assert_eq!(parse("12 3"), Err(HexError::HalfByte { at: 4 }));
        assert_eq!(parse("1 2"), Err(HexError::HalfByte { at: 1 }));
        assert_eq!(parse("12 x4"), Err(HexError::NoDigit { at: 3, found: 'x' }));
    }
}
