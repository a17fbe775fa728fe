//! The dictionary image: its contents, then the objects' bodies.

use crate::cursor::Cursor;
use crate::object::Object;
use std::fmt;
use std::ops::Range;

pub const MOST_IMAGE: usize = 65_536;
pub const MOST_CAPACITY: u16 = 8_192;

const COUNT_SIZE: usize = 2;
const ENTRY_SIZE: usize = 12;
const VARIABLE: u8 = 1;
const READ_ONLY: u8 = 2;

#[derive(Debug, Clone, PartialEq, Eq)]
pub struct Entry {
    pub object: Object,
    /// Whether the value may be shorter than the capacity.
    pub variable: bool,
    pub read_only: bool,
    pub capacity: u16,
    pub value: Vec<u8>,
}

/// A rule of a sound image that does not hold.
#[derive(Debug, Clone, PartialEq, Eq)]
pub enum Unsound {
    Order { before: Object, object: Object },
    Capacity { capacity: u16 },
    TooLong { length: usize, capacity: u16 },
    NotFilled { length: usize, capacity: u16 },
    TooLarge { size: usize },
    Flags { flags: u8 },
    Place { found: u32, due: usize },
    Cut,
    End { size: usize, due: usize },
}

impl fmt::Display for Unsound {
    fn fmt(&self, f: &mut fmt::Formatter) -> fmt::Result {
        match self {
            Unsound::Order { before, object } if before == object => {
                write!(f, "{object} is there twice")
            }
            Unsound::Order { before, object } => write!(
                f,
                "{object} stands behind {before}: objects go in ascending order"
            ),
            Unsound::Capacity { capacity } => {
                write!(f, "a capacity of {capacity}: it is 1 to {MOST_CAPACITY}")
            }
            Unsound::TooLong { length, capacity } => {
                write!(f, "a value of {length} bytes in a capacity of {capacity}")
            }
            Unsound::NotFilled { length, capacity } => write!(
                f,
                "a value of {length} bytes in a capacity of {capacity}: a fixed object fills its capacity"
            ),
            Unsound::TooLarge { size } => {
                write!(f, "an image of {size} bytes: it has at most {MOST_IMAGE}")
            }
            Unsound::Flags { flags } => write!(f, "flags {flags:02X}: they are 0 to 3"),
            Unsound::Place { found, due } => {
                write!(f, "a body at byte {found} where byte {due} is next")
            }
            Unsound::Cut => write!(f, "the image ends within its contents"),
            Unsound::End { size, due } => {
                write!(f, "an image of {size} bytes whose last body ends at {due}")
            }
        }
    }
}

impl std::error::Error for Unsound {}

impl Entry {
    /// The rules of one entry, behind the one before it.
    pub fn check(&self, before: Option<Object>) -> Result<(), Unsound> {
        let (length, capacity) = (self.value.len(), self.capacity);
        if let Some(before) = before.filter(|&before| before >= self.object) {
            let object = self.object;
            return Err(Unsound::Order { before, object });
        }
        if !(1..=MOST_CAPACITY).contains(&capacity) {
            return Err(Unsound::Capacity { capacity });
        }
        if length > capacity.into() {
            return Err(Unsound::TooLong { length, capacity });
        }
        if !self.variable && length != usize::from(capacity) {
            return Err(Unsound::NotFilled { length, capacity });
        }
        Ok(())
    }

    fn flags(&self) -> u8 {
        let variable = if self.variable { VARIABLE } else { 0 };
        let read_only = if self.read_only { READ_ONLY } else { 0 };
        variable | read_only
    }

    /// The bytes it takes in an image: its place in the contents and its body.
    pub fn size(&self) -> usize {
        ENTRY_SIZE + usize::from(self.capacity)
    }
}

/// The size of the image that holds these entries.
pub fn image_size(entries: &[Entry]) -> usize {
    COUNT_SIZE + entries.iter().map(Entry::size).sum::<usize>()
}

/// A sound image of these entries, or the rule that does not hold.
pub fn encode(entries: &[Entry]) -> Result<Vec<u8>, Unsound> {
    let mut before = None;
    for entry in entries {
        entry.check(before)?;
        before = Some(entry.object);
    }
    let size = image_size(entries);
    if size > MOST_IMAGE {
        return Err(Unsound::TooLarge { size });
    }
    let mut image = (entries.len() as u16).to_le_bytes().to_vec();
    let mut at = COUNT_SIZE + ENTRY_SIZE * entries.len();
    for entry in entries {
        image.extend(entry.object.index.to_le_bytes());
        image.extend([entry.object.sub, entry.flags()]);
        image.extend((at as u32).to_le_bytes());
        image.extend(entry.capacity.to_le_bytes());
        image.extend((entry.value.len() as u16).to_le_bytes());
        at += usize::from(entry.capacity);
    }
    for entry in entries {
        image.extend(&entry.value);
        image.resize(
            image.len() + usize::from(entry.capacity) - entry.value.len(),
            0,
        );
    }
    Ok(image)
}

/// An entry of the contents as it is written there.
struct Listed {
    object: Object,
    flags: u8,
    offset: u32,
    capacity: u16,
    length: u16,
}

fn listed(contents: &mut Cursor) -> Option<Listed> {
    Some(Listed {
        object: Object {
            index: contents.u16()?,
            sub: contents.u8()?,
        },
        flags: contents.u8()?,
        offset: contents.u32()?,
        capacity: contents.u16()?,
        length: contents.u16()?,
    })
}

/// The entries of a sound image, or the rule that does not hold.
pub fn decode(image: &[u8]) -> Result<Vec<Entry>, Unsound> {
    let size = image.len();
    if size > MOST_IMAGE {
        return Err(Unsound::TooLarge { size });
    }
    let mut contents = Cursor::new(image);
    let count = contents.u16().ok_or(Unsound::Cut)?;
    let mut due = COUNT_SIZE + ENTRY_SIZE * usize::from(count);
    let mut entries: Vec<Entry> = Vec::new();
    for _ in 0..count {
        let listed = listed(&mut contents).ok_or(Unsound::Cut)?;
        let entry = entry_at(image, &listed, due)?;
        entry.check(entries.last().map(|before| before.object))?;
        due += usize::from(entry.capacity);
        entries.push(entry);
    }
    if due != size {
        return Err(Unsound::End { size, due });
    }
    Ok(entries)
}

/// The entry whose body is due at this byte.
fn entry_at(image: &[u8], listed: &Listed, due: usize) -> Result<Entry, Unsound> {
    let (flags, found) = (listed.flags, listed.offset);
    if flags > VARIABLE | READ_ONLY {
        return Err(Unsound::Flags { flags });
    }
    if found as usize != due {
        return Err(Unsound::Place { found, due });
    }
    let end = due + usize::from(listed.length);
    let cut = Unsound::End {
        size: image.len(),
        due: end,
    };
    Ok(Entry {
        object: listed.object,
        variable: flags & VARIABLE != 0,
        read_only: flags & READ_ONLY != 0,
        capacity: listed.capacity,
        value: image.get(due..end).ok_or(cut)?.to_vec(),
    })
}

/// Where an object's value stands in a sound image.
pub fn place_of(image: &[u8], object: Object) -> Option<Range<usize>> {
    let mut contents = Cursor::new(image);
    let count = contents.u16()?;
    (0..count)
        .map_while(|_| listed(&mut contents))
        .find_map(|listed| {
            let start = listed.offset as usize;
            (listed.object == object).then_some(start..start + usize::from(listed.length))
        })
}

#[cfg(test)]
mod tests {
    use super::*;

    fn entry(index: u16, variable: bool, capacity: u16, value: &[u8]) -> Entry {
        Entry {
            object: Object { index, sub: 0 },
            variable,
            read_only: index == 0x2000,
            capacity,
            value: value.to_vec(),
        }
    }

    fn sample() -> Vec<Entry> {
        vec![
            entry(0x1300, false, 4, &[1, 2, 3, 4]),
            entry(0x2000, true, 6, b"abc"),
            entry(0x2001, true, 1, b""),
        ]
    }

    #[test]
    fn what_is_encoded_is_decoded() {
        let image = encode(&sample()).unwrap();
        assert_eq!(image.len(), 2 + 3 * 12 + 11);
        assert_eq!(decode(&image), Ok(sample()));
        assert_eq!(decode(&[0, 0]), Ok(vec![]));
        let object = Object {
            index: 0x2000,
            sub: 0,
        };
        assert_eq!(&image[place_of(&image, object).unwrap()], b"abc");
        let absent = Object {
            index: 0x2000,
            sub: 1,
        };
        assert_eq!(place_of(&image, absent), None);
    }

    #[test]
    fn each_rule_is_tested_in_a_list_of_entries() {
        let object = |index| Object { index, sub: 0 };
        let wrong = |entries: &[Entry]| encode(entries).unwrap_err();
        let (first, again) = (entry(0x2001, true, 1, b""), entry(0x2000, true, 1, b""));
        assert_eq!(
            wrong(&[first, again]),
            Unsound::Order {
                before: object(0x2001),
                object: object(0x2000)
            }
        );
        for capacity in [0, 8_193] {
            let unsound = wrong(&[entry(1, true, capacity, b"")]);
            assert_eq!(unsound, Unsound::Capacity { capacity });
        }
        let (length, capacity) = (3, 2);
        let unsound = wrong(&[entry(1, true, 2, b"abc")]);
        assert_eq!(unsound, Unsound::TooLong { length, capacity });
        let (length, capacity) = (1, 2);
        let unsound = wrong(&[entry(1, false, 2, b"a")]);
        assert_eq!(unsound, Unsound::NotFilled { length, capacity });
        let many: Vec<Entry> = (0..8).map(|at| entry(at, true, 8_192, b"")).collect();
        let size = 2 + 8 * 8_204;
        assert_eq!(wrong(&many), Unsound::TooLarge { size });
    }

    #[test]
    fn a_spoilt_image_is_not_decoded() {
        let image = encode(&sample()).unwrap();
        for (at, byte) in [
            (0, 4),
            (0, 2),
            (5, 4),
            (6, 0),
            (10, 5),
            (12, 3),
            (15, 0x13),
            (15, 0),
        ] {
            let mut spoilt = image.clone();
            spoilt[at] = byte;
            assert!(decode(&spoilt).is_err(), "byte {at} as {byte}");
        }
        for length in 0..image.len() {
            assert!(decode(&image[..length]).is_err(), "cut to {length}");
        }
        assert!(decode(&[image, vec![0]].concat()).is_err());
    }
}
