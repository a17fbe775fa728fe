//! Stands in for crates/powerlink-rs/src/od, which is not at hand: a
//! dictionary that reads and writes a byte image, by document 01's paragraph
//! "Dictionary image". Its errors are those that `perform_od_write` of
//! state.rs turns into that paragraph's abort codes, in its order: object,
//! sub-index, fixed entry and short data, any other misfit, read-only.

pub mod image;

use alloc::borrow::Cow;

use crate::PowerlinkError;
use image::Entry;

/// A value, of the kind that its entry's flags say.
#[derive(Debug, Clone, PartialEq, Eq)]
pub enum ObjectValue {
    /// As long as the entry's capacity.
    Fixed(Vec<u8>),
    /// At most as long as the entry's capacity.
    Variable { value: Vec<u8>, capacity: usize },
}

impl ObjectValue {
    fn of(entry: &Entry, image: &[u8]) -> Self {
        let value = entry.value(image).to_vec();
        if entry.is_variable() {
            let capacity = entry.capacity;
            Self::Variable { value, capacity }
        } else {
            Self::Fixed(value)
        }
    }

    fn bytes(&self) -> &[u8] {
        match self {
            Self::Fixed(value) | Self::Variable { value, .. } => value,
        }
    }

    pub fn serialize(&self) -> Vec<u8> {
        self.bytes().to_vec()
    }

    /// `data` as a value of the template's entry. Short data for a fixed one
    /// is BufferTooShort (06070013), any other misfit TypeMismatch (06070010).
    pub fn deserialize(data: &[u8], template: &Self) -> Result<Self, PowerlinkError> {
        match *template {
            Self::Fixed(ref old) if data.len() < old.len() => Err(PowerlinkError::BufferTooShort),
            Self::Fixed(ref old) if data.len() == old.len() => Ok(Self::Fixed(data.to_vec())),
            Self::Variable { capacity, .. } if data.len() <= capacity => Ok(Self::Variable {
                value: data.to_vec(),
                capacity,
            }),
            _ => Err(PowerlinkError::TypeMismatch),
        }
    }
}

/// What an object is to `handle_read_all_by_index`. No command within the
/// domain of comparison asks; the image does not say.
#[allow(dead_code)]
pub enum Object {
    Record(Vec<ObjectValue>),
    Array(Vec<ObjectValue>),
    Variable(ObjectValue),
}

/// A sound image. Of an unsound one, no method may be called but `image`.
pub struct ObjectDictionary {
    image: Vec<u8>,
    written: bool,
}

impl ObjectDictionary {
    pub fn new(image: Vec<u8>) -> Self {
        Self {
            image,
            written: false,
        }
    }

    pub fn image(&self) -> &[u8] {
        &self.image
    }

    /// Whether there was a write since this was last asked.
    pub fn take_written(&mut self) -> bool {
        core::mem::take(&mut self.written)
    }

    pub fn read(&self, index: u16, sub_index: u8) -> Option<Cow<'_, ObjectValue>> {
        let entry = image::find(&self.image, index, sub_index)?;
        Some(Cow::Owned(ObjectValue::of(&entry, &self.image)))
    }

    /// Counts only 4 bytes that are not variable.
    pub fn read_u32(&self, index: u16, sub_index: u8) -> Option<u32> {
        let entry = image::find(&self.image, index, sub_index)?;
        if entry.is_variable() {
            return None;
        }
        Some(u32::from_le_bytes(
            entry.value(&self.image).try_into().ok()?,
        ))
    }

    /// Asked by the Rust only whether there is one.
    pub fn read_object(&self, index: u16) -> Option<Object> {
        let entry = image::first_of(&self.image, index)?;
        Some(Object::Variable(ObjectValue::of(&entry, &self.image)))
    }

    /// Changes only the data's bytes and the length.
    pub fn write(
        &mut self,
        index: u16,
        sub_index: u8,
        value: ObjectValue,
    ) -> Result<(), PowerlinkError> {
        let entry = image::find(&self.image, index, sub_index)
            .expect("state.rs has read the entry before it writes");
        if entry.is_read_only() {
            return Err(PowerlinkError::StorageError("Object is read-only"));
        }
        entry.put(&mut self.image, value.bytes());
        self.written = true;
        Ok(())
    }

    /// The commands by name are outside the domain of comparison, and the
    /// image has no names.
    pub fn find_by_name(&self, name: &str) -> Option<(u16, u8)> {
        panic!("the name {name:?} was looked for")
    }
}
