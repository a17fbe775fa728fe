//! Document 01's numbers in words.

use super::head::Head;
use super::record::Record;
use super::record::State;
use crate::sdo::command::SdoCommand;
use crate::sdo::server::SdoClientInfo;

pub const RECEIVE_MARKS: [&str; 4] = ["none", "initialization", "valid", "error response"];
pub const SEND_MARKS: [&str; 4] = ["none", "initialization", "valid", "valid with ack request"];

/// Of a record when a call comes; the first is a client without one.
pub const STATES: [&str; 6] = [
    "no record",
    "Closed",
    "Opening",
    "Established",
    "upload",
    "download",
];

/// Document 01's abort codes.
pub const ABORT_CODES: [(u32, &str); 10] = [
    (0x0504_0000, "timed out"),
    (0x0504_0001, "command not valid"),
    (0x0504_0003, "sequence not valid"),
    (0x0504_0005, "out of memory"),
    (0x0601_0002, "read-only object written"),
    (0x0602_0000, "no such object"),
    (0x0607_0010, "length or type does not fit"),
    (0x0607_0013, "length too low"),
    (0x0609_0011, "no such sub-index"),
    (0x0800_0000, "general error"),
];

pub fn state(record: Option<&Record>) -> &'static str {
    STATES[match record.map(|record| &record.state) {
        None => 0,
        Some(State::Closed) => 1,
        Some(State::Opening) => 2,
        Some(State::Established) => 3,
        Some(State::Upload(_)) => 4,
        Some(State::Download(_)) => 5,
    }]
}

pub fn refusal(number: u8) -> &'static str {
    match number {
        1 => "answer buffer under 1,468, area not 65,536 or table not 8",
        2 => "image not sound",
        3 => "table not sound",
        4 => "clock above 2^63 - 1",
        5 => "request under 4 bytes",
        6 => "request above 1,500 bytes",
        7 => "eight used records, none this client's",
        8 => "sequence number or opening not right",
        9 => "empty command where none is awaited",
        _ => "no refusal of document 01",
    }
}

pub fn client(client: &SdoClientInfo) -> String {
    match client {
        SdoClientInfo::Asnd {
            source_node_id,
            source_mac,
        } => {
            let mac: Vec<String> = source_mac.0.iter().map(|b| format!("{b:02x}")).collect();
            format!("ASnd node {} MAC {}", source_node_id.0, mac.join(":"))
        }
        SdoClientInfo::Udp {
            source_ip,
            source_port,
        } => {
            let [a, b, c, d] = source_ip.0;
            format!("UDP {a}.{b}.{c}.{d} port {source_port}")
        }
    }
}

pub fn head(head: &Head) -> String {
    format!(
        "receive {} ({}), send {} ({})",
        head.receive,
        RECEIVE_MARKS[head.receive_mark as usize],
        head.send,
        SEND_MARKS[head.send_mark as usize],
    )
}

/// A frame's command, the bytes from the fifth on.
pub fn command(bytes: &[u8]) -> String {
    if bytes.is_empty() {
        return "empty".into();
    }
    let Ok(SdoCommand {
        header,
        data_size,
        payload,
    }) = SdoCommand::deserialize(bytes)
    else {
        return format!("undecodable, {}", start(bytes));
    };
    let mut text = format!(
        "{:?} {:?}, transaction {}",
        header.command_id, header.segmentation, header.transaction_id
    );
    if header.is_response {
        text += ", response";
    }
    if header.is_aborted {
        text += ", aborted";
    }
    if let Some(total) = data_size {
        text += &format!(", total {total}");
    }
    if let (true, Some(code)) = (header.is_aborted, abort_code(&payload)) {
        return text + &format!(", code {}", abort(code));
    }
    text + &format!(", payload {}", start(&payload))
}

/// An aborted command's payload of four bytes is its code.
pub fn abort_code(payload: &[u8]) -> Option<u32> {
    payload.try_into().ok().map(u32::from_le_bytes)
}

pub fn abort(code: u32) -> String {
    let known = ABORT_CODES.iter().find(|(listed, _)| *listed == code);
    let meaning = known.map_or("no code of document 01", |(_, meaning)| meaning);
    format!("{code:08X} ({meaning})")
}

/// How many bytes there are, and the first.
pub fn start(bytes: &[u8]) -> String {
    let first: Vec<String> = bytes.iter().take(16).map(|b| format!("{b:02x}")).collect();
    let more = if bytes.len() > 16 { " ..." } else { "" };
    match bytes.len() {
        0 => "of 0 bytes".into(),
        1 => format!("of 1 byte: {}", first[0]),
        count => format!("of {count} bytes: {}{more}", first.join(" ")),
    }
}
