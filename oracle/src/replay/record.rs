//! A client's 8 bytes and a connection record's 40, as REPLAY.md lays them
//! out.

use std::io::Read;

use crate::frame::basic::MacAddress;
use crate::sdo::server::SdoClientInfo;
use crate::stream::{Fault, Fields};
use crate::types::{IpAddress, NodeId};

/// The numbers of a fresh record.
pub const FIRST_SEND: u8 = 0;
pub const FIRST_RECEIVE: u8 = 63;

#[derive(Debug, Clone, Copy, PartialEq, Eq)]
pub struct Record {
    pub used: bool,
    pub client: SdoClientInfo,
    pub area: u8,
    pub send: u8,
    pub receive: u8,
    pub state: State,
}

#[derive(Debug, Clone, Copy, PartialEq, Eq)]
pub enum State {
    Closed,
    Opening,
    Established,
    Upload(Transfer),
    Download(Transfer),
}

#[derive(Debug, Clone, Copy, PartialEq, Eq)]
pub struct Transfer {
    pub transaction: u8,
    pub total: u32,
    pub offset: u32,
    pub index: u16,
    pub sub_index: u8,
    pub deadline: Option<u64>,
    pub retries: u32,
    pub stored: bool,
}

impl Record {
    /// A record of nobody, but for its area number.
    pub const fn unused(area: u8) -> Self {
        Self {
            used: false,
            client: SdoClientInfo::Asnd {
                source_node_id: NodeId(0),
                source_mac: MacAddress([0; 6]),
            },
            area,
            send: FIRST_SEND,
            receive: FIRST_RECEIVE,
            state: State::Closed,
        }
    }

    pub fn read(fields: &mut Fields<impl Read>) -> Result<Self, Fault> {
        let used = fields.flag("used")?;
        let client = read_client(fields)?;
        let [area, send, receive] = fields.array()?;
        let state = fields.u8_to(4, "state")?;
        let rest: [u8; 27] = fields.array()?;
        let state = match state {
            0 => State::Closed,
            1 => State::Opening,
            2 => State::Established,
            3 => State::Upload(Transfer::read(&mut Fields::new(&rest[..]))?),
            _ => State::Download(Transfer::read(&mut Fields::new(&rest[..]))?),
        };
        Ok(Self {
            used,
            client,
            area,
            send,
            receive,
            state,
        })
    }

    pub fn write(&self, out: &mut Vec<u8>) {
        out.push(self.used as u8);
        write_client(&self.client, out);
        out.extend([self.area, self.send, self.receive]);
        match &self.state {
            State::Closed => out.extend([0; 28]),
            State::Opening => write_state(1, None, out),
            State::Established => write_state(2, None, out),
            State::Upload(transfer) => write_state(3, Some(transfer), out),
            State::Download(transfer) => write_state(4, Some(transfer), out),
        }
    }
}

fn write_state(number: u8, transfer: Option<&Transfer>, out: &mut Vec<u8>) {
    out.push(number);
    match transfer {
        Some(transfer) => transfer.write(out),
        None => out.extend([0; 27]),
    }
}

impl Transfer {
    fn read(fields: &mut Fields<impl Read>) -> Result<Self, Fault> {
        let transaction = fields.u8()?;
        let total = fields.u32()?;
        let offset = fields.u32()?;
        let index = fields.u16()?;
        let sub_index = fields.u8()?;
        let present = fields.flag("deadline present")?;
        let deadline = fields.u64()?;
        Ok(Self {
            transaction,
            total,
            offset,
            index,
            sub_index,
            deadline: present.then_some(deadline),
            retries: fields.u32()?,
            stored: fields.flag("stored piece present")?,
        })
    }

    fn write(&self, out: &mut Vec<u8>) {
        out.push(self.transaction);
        out.extend(self.total.to_le_bytes());
        out.extend(self.offset.to_le_bytes());
        out.extend(self.index.to_le_bytes());
        out.extend([self.sub_index, self.deadline.is_some() as u8]);
        out.extend(self.deadline.unwrap_or(0).to_le_bytes());
        out.extend(self.retries.to_le_bytes());
        out.extend([self.stored as u8, 0]);
    }
}

pub fn read_client(fields: &mut Fields<impl Read>) -> Result<SdoClientInfo, Fault> {
    let kind = fields.u8_to(1, "kind of client")?;
    let [a, b, c, d, e, f, g] = fields.array()?;
    Ok(match kind {
        0 => SdoClientInfo::Asnd {
            source_node_id: NodeId(a),
            source_mac: MacAddress([b, c, d, e, f, g]),
        },
        _ => SdoClientInfo::Udp {
            source_ip: IpAddress([a, b, c, d]),
            source_port: u16::from_le_bytes([e, f]),
        },
    })
}

pub fn write_client(client: &SdoClientInfo, out: &mut Vec<u8>) {
    match client {
        SdoClientInfo::Asnd {
            source_node_id,
            source_mac,
        } => {
            out.extend([0, source_node_id.0]);
            out.extend(source_mac.0);
        }
        SdoClientInfo::Udp {
            source_ip,
            source_port,
        } => {
            out.push(1);
            out.extend(source_ip.0);
            out.extend(source_port.to_le_bytes());
            out.push(0);
        }
    }
}
