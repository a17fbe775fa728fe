//! The dictionary image of document 01. Contents first: a u16 count; per entry
//! index u16, sub u8, flags u8, body offset u32, capacity u16, length u16.
//! Then the bodies.

pub const VARIABLE: u8 = 1;
pub const READ_ONLY: u8 = 2;
pub const MAX_IMAGE: usize = 65_536;
pub const MAX_CAPACITY: usize = 8_192;

const COUNT: usize = 2;
const ENTRY: usize = 12;

#[derive(Debug, Clone, Copy)]
pub struct Entry {
    /// Where the entry stands in the contents.
    at: usize,
    pub index: u16,
    pub sub_index: u8,
    pub flags: u8,
    body: usize,
    pub capacity: usize,
    pub length: usize,
}

impl Entry {
    /// Entry number `n`; the contents must hold it.
    fn read(image: &[u8], n: usize) -> Self {
        let at = COUNT + ENTRY * n;
        let bytes = image[at..].first_chunk().expect("the contents hold it");
        let [i0, i1, sub_index, flags, b0, b1, b2, b3, c0, c1, l0, l1]: [u8; ENTRY] = *bytes;
        Self {
            at,
            index: u16::from_le_bytes([i0, i1]),
            sub_index,
            flags,
            body: u32::from_le_bytes([b0, b1, b2, b3]) as usize,
            capacity: u16::from_le_bytes([c0, c1]) as usize,
            length: u16::from_le_bytes([l0, l1]) as usize,
        }
    }

    pub fn key(&self) -> (u16, u8) {
        (self.index, self.sub_index)
    }

    pub fn is_variable(&self) -> bool {
        self.flags & VARIABLE != 0
    }

    pub fn is_read_only(&self) -> bool {
        self.flags & READ_ONLY != 0
    }

    /// The body's first `length` bytes.
    pub fn value<'a>(&self, image: &'a [u8]) -> &'a [u8] {
        &image[self.body..self.body + self.length]
    }

    pub fn put(&self, image: &mut [u8], value: &[u8]) {
        assert!(value.len() <= self.capacity);
        image[self.body..self.body + value.len()].copy_from_slice(value);
        image[self.at + 10..self.at + 12].copy_from_slice(&(value.len() as u16).to_le_bytes());
    }
}

fn count(image: &[u8]) -> usize {
    u16::from_le_bytes([image[0], image[1]]) as usize
}

/// Every entry of a sound image.
pub fn entries(image: &[u8]) -> Vec<Entry> {
    (0..count(image)).map(|n| Entry::read(image, n)).collect()
}

pub fn is_sound(image: &[u8]) -> bool {
    if image.len() < COUNT || image.len() > MAX_IMAGE {
        return false;
    }
    let mut end = COUNT + ENTRY * count(image);
    if image.len() < end {
        return false;
    }
    let mut before = None;
    for entry in (0..count(image)).map(|n| Entry::read(image, n)) {
        let fits = match entry.is_variable() {
            true => entry.length <= entry.capacity,
            false => entry.length == entry.capacity,
        };
        let good = before < Some(entry.key())
            && entry.flags <= VARIABLE | READ_ONLY
            && (1..=MAX_CAPACITY).contains(&entry.capacity)
            && entry.body == end
            && fits;
        if !good {
            return false;
        }
        before = Some(entry.key());
        end += entry.capacity;
    }
    image.len() == end
}

/// The first entry of a sound image whose key is `key` or above.
fn from_key(image: &[u8], key: (u16, u8)) -> Option<Entry> {
    let (mut low, mut high) = (0, count(image));
    while low < high {
        let middle = (low + high) / 2;
        if Entry::read(image, middle).key() < key {
            low = middle + 1;
        } else {
            high = middle;
        }
    }
    (low < count(image)).then(|| Entry::read(image, low))
}

pub fn find(image: &[u8], index: u16, sub_index: u8) -> Option<Entry> {
    from_key(image, (index, sub_index)).filter(|entry| entry.key() == (index, sub_index))
}

/// The first entry of an object.
pub fn first_of(image: &[u8], index: u16) -> Option<Entry> {
    from_key(image, (index, 0)).filter(|entry| entry.index == index)
}

/// An entry to be laid into an image: its body is `value`, then zeros.
#[derive(Clone)]
pub struct Content {
    pub index: u16,
    pub sub_index: u8,
    pub flags: u8,
    pub capacity: usize,
    pub value: Vec<u8>,
}

/// The image of these entries, in the order given.
pub fn build(contents: &[Content]) -> Vec<u8> {
    let mut image = (contents.len() as u16).to_le_bytes().to_vec();
    let mut body = COUNT + ENTRY * contents.len();
    for content in contents {
        image.extend(content.index.to_le_bytes());
        image.extend([content.sub_index, content.flags]);
        image.extend((body as u32).to_le_bytes());
        image.extend((content.capacity as u16).to_le_bytes());
        image.extend((content.value.len() as u16).to_le_bytes());
        body += content.capacity;
    }
    for content in contents {
        image.extend(&content.value);
        image.extend(vec![0; content.capacity - content.value.len()]);
    }
    image
}
