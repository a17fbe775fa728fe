//! A table's 320 bytes to the eight records that the tests look at, and back:
//! what the Rust pays for the archive's interface. The places of the fields
//! are those of oracle/REPLAY.md. `decode` and `encode` are functions of their
//! own in the program, so that their instructions can be counted.

use formats::record::{RECORD_SIZE, TABLE_SIZE};
use oracle::frame::basic::MacAddress;
use oracle::replay::table::{Table, RECORDS};
use oracle::replay::{Record, State, Transfer};
use oracle::sdo::server::SdoClientInfo;
use oracle::types::{IpAddress, NodeId};

/// What stands for bytes that are no table: it is not sound, so the tests
/// refuse it with 3, where nothing before is wrong.
pub const NO_TABLE: Table = [Record::unused(0); RECORDS];

type Bytes = [u8; RECORD_SIZE];

/// The table of these bytes, made in `room`.
pub fn table_of<'a>(bytes: &[u8; TABLE_SIZE], room: &'a mut Table) -> &'a Table {
    if decode(bytes, room) {
        room
    } else {
        &NO_TABLE
    }
}

/// Whether the bytes are a table; its records are then in `table`.
#[inline(never)]
fn decode(bytes: &[u8; TABLE_SIZE], table: &mut Table) -> bool {
    for (record, bytes) in table.iter_mut().zip(bytes.chunks_exact(RECORD_SIZE)) {
        match bytes.first_chunk() {
            Some(bytes) if is_record(bytes) => decode_record(bytes, record),
            _ => return false,
        }
    }
    true
}

#[inline(never)]
pub fn encode(table: &Table, bytes: &mut [u8; TABLE_SIZE]) {
    for (record, bytes) in table.iter().zip(bytes.chunks_exact_mut(RECORD_SIZE)) {
        if let Some(bytes) = bytes.first_chunk_mut() {
            encode_record(record, bytes);
        }
    }
}

/// Whether flags, kind of client and state are there; a transfer's flags are
/// looked at in transfers alone.
fn is_record(bytes: &Bytes) -> bool {
    bytes[0] < 2
        && bytes[1] < 2
        && match bytes[12] {
            0..=2 => true,
            3 | 4 => bytes[25] < 2 && bytes[38] < 2,
            _ => false,
        }
}

/// Field by field to its place: a record returned whole is copied once more.
fn decode_record(bytes: &Bytes, record: &mut Record) {
    record.used = bytes[0] == 1;
    record.client = decode_client(bytes);
    record.area = bytes[9];
    record.send = bytes[10];
    record.receive = bytes[11];
    match bytes[12] {
        0 => record.state = State::Closed,
        1 => record.state = State::Opening,
        2 => record.state = State::Established,
        3 => record.state = State::Upload(decode_transfer(bytes)),
        _ => record.state = State::Download(decode_transfer(bytes)),
    }
}

fn decode_client(bytes: &Bytes) -> SdoClientInfo {
    match bytes[1] {
        0 => SdoClientInfo::Asnd {
            source_node_id: NodeId(bytes[2]),
            source_mac: MacAddress(field(bytes, 3)),
        },
        _ => SdoClientInfo::Udp {
            source_ip: IpAddress(field(bytes, 2)),
            source_port: u16::from_le_bytes(field(bytes, 6)),
        },
    }
}

fn decode_transfer(bytes: &Bytes) -> Transfer {
    let deadline = u64::from_le_bytes(field(bytes, 26));
    Transfer {
        transaction: bytes[13],
        total: u32::from_le_bytes(field(bytes, 14)),
        offset: u32::from_le_bytes(field(bytes, 18)),
        index: u16::from_le_bytes(field(bytes, 22)),
        sub_index: bytes[24],
        deadline: (bytes[25] == 1).then_some(deadline),
        retries: u32::from_le_bytes(field(bytes, 34)),
        stored: bytes[38] == 1,
    }
}

/// The N bytes from a place on.
fn field<const N: usize>(bytes: &Bytes, at: usize) -> [u8; N] {
    let mut field = [0; N];
    field.copy_from_slice(&bytes[at..at + N]);
    field
}

fn encode_record(record: &Record, bytes: &mut Bytes) {
    bytes[0] = record.used as u8;
    encode_client(&record.client, bytes);
    bytes[9] = record.area;
    bytes[10] = record.send;
    bytes[11] = record.receive;
    let (number, transfer) = match &record.state {
        State::Closed => (0, None),
        State::Opening => (1, None),
        State::Established => (2, None),
        State::Upload(transfer) => (3, Some(transfer)),
        State::Download(transfer) => (4, Some(transfer)),
    };
    bytes[12] = number;
    match transfer {
        None => bytes[13..].fill(0),
        Some(transfer) => encode_transfer(transfer, bytes),
    }
}

fn encode_client(client: &SdoClientInfo, bytes: &mut Bytes) {
    match client {
        SdoClientInfo::Asnd {
            source_node_id,
            source_mac,
        } => {
            bytes[1] = 0;
            bytes[2] = source_node_id.0;
            bytes[3..9].copy_from_slice(&source_mac.0);
        }
        SdoClientInfo::Udp {
            source_ip,
            source_port,
        } => {
            bytes[1] = 1;
            bytes[2..6].copy_from_slice(&source_ip.0);
            bytes[6..8].copy_from_slice(&source_port.to_le_bytes());
            bytes[8] = 0;
        }
    }
}

fn encode_transfer(transfer: &Transfer, bytes: &mut Bytes) {
    bytes[13] = transfer.transaction;
    bytes[14..18].copy_from_slice(&transfer.total.to_le_bytes());
    bytes[18..22].copy_from_slice(&transfer.offset.to_le_bytes());
    bytes[22..24].copy_from_slice(&transfer.index.to_le_bytes());
    bytes[24] = transfer.sub_index;
    bytes[25] = transfer.deadline.is_some() as u8;
    bytes[26..34].copy_from_slice(&transfer.deadline.unwrap_or(0).to_le_bytes());
    bytes[34..38].copy_from_slice(&transfer.retries.to_le_bytes());
    bytes[38] = transfer.stored as u8;
    bytes[39] = 0;
}

#[cfg(test)]
mod tests {
    use super::*;
    use crate::checks::{self, Lent};
    use formats::random::Random;
    use formats::script::{self, Item};
    use oracle::replay::{self, Profile, ANSWER};
    use oracle::stream::Fields;
    use sdo::{raw, Player, AREA_SIZE};

    type TableBytes = [u8; TABLE_SIZE];

    /// The records of the bytes, and the bytes of these records.
    type Coded = Option<(Table, TableBytes)>;

    /// What room and bytes hold before: a field that is left out shows.
    const STALE: Record = Record {
        used: true,
        client: SdoClientInfo::Udp {
            source_ip: IpAddress([0xA5; 4]),
            source_port: 0xA5A5,
        },
        area: 0xA5,
        send: 0xA5,
        receive: 0xA5,
        state: State::Opening,
    };

    fn by_hand(bytes: &TableBytes) -> Coded {
        let mut table = [STALE; RECORDS];
        decode(bytes, &mut table).then(|| {
            let mut written = [0xA5; TABLE_SIZE];
            encode(&table, &mut written);
            (table, written)
        })
    }

    fn by_the_oracle(bytes: &TableBytes) -> Coded {
        let mut fields = Fields::new(&bytes[..]);
        let mut table = [STALE; RECORDS];
        let mut written = Vec::new();
        for record in &mut table {
            *record = Record::read(&mut fields).ok()?;
            record.write(&mut written);
        }
        Some((table, written.try_into().unwrap()))
    }

    /// The tables lent and left in a script of the profile.
    fn tables(profile: &str) -> Vec<TableBytes> {
        let mut bytes = Vec::new();
        let named = Profile::named(profile).unwrap();
        replay::script(5, 1_000, named, &mut bytes).unwrap();
        let mut player = Player::new();
        let mut tables = Vec::new();
        for item in script::read(&bytes).0 {
            if let Item::Table(table) = &item {
                tables.push(**table);
            }
            player.play(&item);
            tables.push(player.table().try_into().unwrap());
        }
        tables
    }

    fn all_tables() -> Vec<TableBytes> {
        let profiles = ["one", "series", "tables", "images", "wild"];
        profiles.into_iter().flat_map(tables).collect()
    }

    /// Random bytes whose flags, kinds and states are seldom out of their
    /// limits.
    fn near_a_table(random: &mut Random) -> TableBytes {
        let mut bytes = [(); TABLE_SIZE].map(|()| random.byte());
        for record in bytes.chunks_exact_mut(RECORD_SIZE) {
            for (at, limit) in [(0, 2), (1, 2), (12, 5), (25, 2), (38, 2)] {
                let over = (random.below(60) == 0) as u64;
                record[at] = random.below(limit + over) as u8;
            }
        }
        bytes
    }

    /// Bytes that are a table or not: random ones, and tables of scripts with
    /// some byte changed.
    fn spoilt() -> Vec<TableBytes> {
        let mut random = Random::new(7);
        let mut all: Vec<TableBytes> = (0..2_000).map(|_| near_a_table(&mut random)).collect();
        all.extend((0..500).map(|_| [(); TABLE_SIZE].map(|()| random.byte())));
        all.extend(all_tables().into_iter().map(|mut table| {
            let at = random.below(TABLE_SIZE as u64) as usize;
            table[at] = random.below(8) as u8;
            table
        }));
        all
    }

    #[test]
    fn tables_of_scripts_are_coded_as_by_the_oracle() {
        for table in all_tables() {
            let coded = by_hand(&table);
            assert!(coded.is_some(), "{table:?}");
            assert_eq!(coded, by_the_oracle(&table));
        }
    }

    #[test]
    fn any_bytes_are_coded_as_by_the_oracle() {
        let all = spoilt();
        let coded: Vec<Coded> = all.iter().map(by_hand).collect();
        assert_eq!(coded, all.iter().map(by_the_oracle).collect::<Vec<_>>());
        let known = coded.iter().flatten().count();
        assert!(known > 1_000 && coded.len() - known > 1_000, "{known}");
    }

    /// The number by which a tick refuses these bytes: ours.
    fn refusal(bytes: &TableBytes, image: &[u8]) -> Option<u8> {
        let mut room = [STALE; RECORDS];
        let lent = Lent {
            answer: ANSWER,
            area: AREA_SIZE,
            image,
            table: table_of(bytes, &mut room),
        };
        checks::of_tick(&lent, 0)
    }

    /// And the archive's.
    fn archives_refusal(bytes: &TableBytes, image: &[u8]) -> Option<u8> {
        let (area, mut answer) = (vec![0; AREA_SIZE], vec![0; ANSWER]);
        let told = raw::tick(&mut bytes.clone(), &area, image, &mut answer, 0);
        Some(told.outcome as u8).filter(|number| (1..8).contains(number))
    }

    #[test]
    fn what_is_no_table_is_refused_as_by_the_archive() {
        const SOUND: [u8; 2] = [0, 0];
        const UNSOUND: [u8; 2] = [1, 0];
        let all = spoilt();
        for bytes in &all {
            assert_eq!(refusal(bytes, &UNSOUND), archives_refusal(bytes, &UNSOUND));
            let ours = refusal(bytes, &SOUND);
            assert_eq!(ours, archives_refusal(bytes, &SOUND), "{bytes:?}");
            let query = raw::next_action_time(bytes).outcome;
            assert_eq!(ours == Some(3), query == 3, "{bytes:?}");
        }
        let sound = |bytes: &&TableBytes| refusal(bytes, &SOUND).is_none();
        let sound = all.iter().filter(sound).count();
        assert!(sound > 100 && all.len() - sound > 1_000, "{sound}");
    }
}
