//! A recording played again through the archive.

use formats::client::Client;
use formats::dictionary;
use formats::frame::{id, Command, Frame, Segmentation, SendMark};
use formats::object::Object;
use formats::record;
use formats::script::{self, Ending, Item};
use sdo::{Outcome, Player};
use std::collections::HashMap;

/// An upload that finished.
#[derive(Debug, Clone, Default)]
pub struct Upload {
    /// The value that the image held when it began.
    pub began: Vec<u8>,
    /// What its pieces spell.
    pub spelled: Vec<u8>,
    /// Whether the image holds another value when it ends.
    pub changed: bool,
    object: Option<Object>,
}

pub struct Played {
    pub ending: Ending,
    pub items: usize,
    pub ticks: usize,
    /// The most clients that the table held at a time.
    pub at_once: usize,
    /// Every answer, by client, in order.
    pub answers: HashMap<Client, Vec<Vec<u8>>>,
    /// Every finished upload, by client, in order.
    pub uploads: HashMap<Client, Vec<Upload>>,
}

impl Played {
    /// The answers to one client.
    pub fn answers_to(&self, client: Client) -> &[Vec<u8>] {
        self.answers.get(&client).map_or(&[], Vec::as_slice)
    }
}

/// Plays the whole items of a recording.
pub fn play(recording: &[u8]) -> Played {
    let (items, ending) = script::read(recording);
    let mut played = Played {
        ending,
        items: items.len(),
        ticks: items
            .iter()
            .filter(|item| matches!(item, Item::Tick { .. }))
            .count(),
        at_once: 0,
        answers: HashMap::new(),
        uploads: HashMap::new(),
    };
    let mut player = Player::new();
    let mut running = HashMap::new();
    for item in &items {
        let held = held(item, player.image());
        let Some(call) = player.play(item) else {
            continue;
        };
        assert!(call.clean, "bytes past an answer were changed");
        played.at_once = played.at_once.max(connected(player.table()));
        let Outcome::Answered { client, bytes } = call.outcome else {
            continue;
        };
        if let Some(upload) = followed(&mut running, client, &bytes, held, player.image()) {
            played.uploads.entry(client).or_default().push(upload);
        }
        played.answers.entry(client).or_default().push(bytes);
    }
    played
}

fn connected(table: &[u8]) -> usize {
    let records = record::read_table(table).expect("a table of records");
    records.iter().filter(|record| record.used).count()
}

/// The object that a request names, and its value.
fn held(item: &Item, image: &[u8]) -> Option<(Object, Vec<u8>)> {
    let Item::Request { bytes, .. } = item else {
        return None;
    };
    let payload = Frame::from_bytes(bytes)?.command?.payload;
    let [low, high, sub, _] = *payload.first_chunk()?;
    let object = Object {
        index: u16::from_le_bytes([low, high]),
        sub,
    };
    Some((object, value(image, object)?))
}

fn value(image: &[u8], object: Object) -> Option<Vec<u8>> {
    Some(image.get(dictionary::place_of(image, object)?)?.to_vec())
}

/// Follows a client's pieces; the upload, if this answer finishes it. What is
/// sent again, under the mark that asks for an acknowledgement, is no new piece.
fn followed(
    running: &mut HashMap<Client, Upload>,
    client: Client,
    answer: &[u8],
    held: Option<(Object, Vec<u8>)>,
    image: &[u8],
) -> Option<Upload> {
    let frame = Frame::from_bytes(answer).expect("an answer decodes");
    let command = frame.command.expect("an answer has a command");
    if !is_piece(&command) || frame.header.send_mark == SendMark::Acknowledge {
        return None;
    }
    if command.segmentation == Segmentation::Initiate {
        let (object, began) = held.expect("an upload begins with a request");
        let object = Some(object);
        let began = Upload {
            began,
            object,
            ..Upload::default()
        };
        running.insert(client, began);
    }
    let upload = running
        .get_mut(&client)
        .expect("a piece has an Initiate before it");
    upload.spelled.extend(command.payload);
    if command.segmentation != Segmentation::Complete {
        return None;
    }
    let mut upload = running.remove(&client)?;
    upload.changed = value(image, upload.object?)? != upload.began;
    Some(upload)
}

fn is_piece(command: &Command) -> bool {
    command.id == id::READ_BY_INDEX && !command.aborted
}
