//! The test aid that changes an object while it is read.

use formats::dictionary;
use formats::object::Object;
use std::str::FromStr;

#[derive(Debug, Clone, Copy, PartialEq, Eq)]
pub struct Overwrite {
    pub object: Object,
    /// How often, in milliseconds.
    pub every: u64,
}

impl FromStr for Overwrite {
    type Err = String;

    fn from_str(text: &str) -> Result<Overwrite, String> {
        let parts = text
            .rsplit_once(':')
            .ok_or("INDEX:SUB and MS are separated by ':'")?;
        let every = parts.1.parse().ok().filter(|&every| every > 0);
        Ok(Overwrite {
            object: parts.0.parse()?,
            every: every.ok_or("MS is a number from 1 on")?,
        })
    }
}

impl Overwrite {
    /// The image with each byte of the object's value one more; None where it
    /// has no such object.
    pub fn changed(&self, image: &[u8]) -> Option<Vec<u8>> {
        let place = dictionary::place_of(image, self.object)?;
        let mut changed = image.to_vec();
        for byte in changed.get_mut(place)? {
            *byte = byte.wrapping_add(1);
        }
        Some(changed)
    }
}

#[cfg(test)]
mod tests {
    use super::*;

    #[test]
    fn the_words_of_the_option() {
        let overwrite: Overwrite = "2110:0:50".parse().unwrap();
        assert_eq!(overwrite.object.to_string(), "2110:0");
        assert_eq!(overwrite.every, 50);
        for wrong in ["2110:0", "2110:0:0", "2110", "", "2110:0:x"] {
            assert!(wrong.parse::<Overwrite>().is_err(), "{wrong}");
        }
    }
}
