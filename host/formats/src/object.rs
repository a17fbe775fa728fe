//! The name of an object: index and sub-index.

use std::fmt;
use std::str::FromStr;

/// Ordered as the entries of an image are.
#[derive(Debug, Clone, Copy, PartialEq, Eq, PartialOrd, Ord, Hash)]
pub struct Object {
    pub index: u16,
    pub sub: u8,
}

impl fmt::Display for Object {
    fn fmt(&self, f: &mut fmt::Formatter) -> fmt::Result {
        write!(f, "{:04X}:{:X}", self.index, self.sub)
    }
}

impl FromStr for Object {
    type Err = String;

    fn from_str(text: &str) -> Result<Object, String> {
        let named = text.split_once(':').and_then(|(index, sub)| {
            Some(Object {
                index: u16::from_str_radix(index, 16).ok()?,
                sub: u8::from_str_radix(sub, 16).ok()?,
            })
        });
        named.ok_or_else(|| {
            format!("'{text}' is no object: write index and sub in hexadecimal, as 2110:0")
        })
    }
}

#[cfg(test)]
mod tests {
    use super::*;

    #[test]
    fn names_are_hexadecimal() {
        let object: Object = "2110:1f".parse().unwrap();
        assert_eq!((object.index, object.sub), (0x2110, 0x1F));
        assert_eq!(object.to_string(), "2110:1F");
        for wrong in ["2110", "2110:", ":0", "21100:0", "2110:100", "x:0", ""] {
            assert!(wrong.parse::<Object>().is_err(), "{wrong}");
        }
    }
}
