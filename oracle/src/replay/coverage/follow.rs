//! What a coverage remembers from call to call: each client's upload, what
//! was written, which shares hold a part of a download.

use std::collections::{BTreeMap, BTreeSet};

use crate::replay::record::Transfer;
use crate::replay::state::PIECE;
use crate::replay::table::RECORDS;
use crate::sdo::server::SdoClientInfo;

#[derive(Default)]
pub struct Follow {
    uploads: BTreeMap<SdoClientInfo, Upload>,
    /// Keys written since the image was lent.
    written: BTreeSet<(u16, u8)>,
    /// Which shares hold a part that was stored in them.
    parts: [bool; RECORDS],
}

/// An upload since its Initiate, or since its table was lent.
#[derive(Clone, Copy)]
pub struct Upload {
    pub key: (u16, u8),
    pub pieces: usize,
    /// Seen from its Initiate on.
    pub begun: bool,
    pub resends: usize,
    pub overwritten: bool,
    pub other_image: bool,
}

impl Upload {
    fn of(transfer: &Transfer, begun: bool) -> Self {
        Self {
            key: (transfer.index, transfer.sub_index),
            pieces: (transfer.total as usize).div_ceil(PIECE),
            begun,
            resends: 0,
            overwritten: false,
            other_image: false,
        }
    }
}

impl Follow {
    pub fn begin(&mut self, client: SdoClientInfo, transfer: &Transfer) -> Upload {
        let upload = Upload::of(transfer, true);
        self.uploads.insert(client, upload);
        upload
    }

    /// The upload of a client whose record has this transfer.
    pub fn upload(&mut self, client: SdoClientInfo, transfer: &Transfer) -> &mut Upload {
        let entry = self.uploads.entry(client);
        entry.or_insert_with(|| Upload::of(transfer, false))
    }

    pub fn end(&mut self, client: &SdoClientInfo) {
        self.uploads.remove(client);
    }

    /// An object was written; says whether another client was reading it.
    pub fn write(&mut self, client: &SdoClientInfo, key: (u16, u8)) -> bool {
        self.written.insert(key);
        let mut met = false;
        for (reader, upload) in &mut self.uploads {
            if reader != client && upload.key == key {
                upload.overwritten = true;
                met = true;
            }
        }
        met
    }

    pub fn was_written(&self, key: (u16, u8)) -> bool {
        self.written.contains(&key)
    }

    pub fn store_part(&mut self, share: u8) {
        self.parts[share as usize] = true;
    }

    pub fn has_part(&self, share: u8) -> bool {
        self.parts[share as usize]
    }

    pub fn copy(&mut self, share: u8) {
        self.parts[share as usize] = false;
    }

    pub fn other_image(&mut self) {
        self.written.clear();
        for upload in self.uploads.values_mut() {
            upload.other_image = true;
        }
    }

    pub fn other_table(&mut self) {
        self.uploads.clear();
    }

    pub fn other_area(&mut self) {
        self.parts = [false; RECORDS];
    }
}
