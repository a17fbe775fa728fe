//! Every refusal of document 01's table, through the safe calls, and what it leaves.

use sdo::{Client, Refusal, Server, ANSWER_SIZE};

const HANDSHAKE: [u8; 4] = [0, 1, 0, 0];
const FILL: u8 = 0xA5;

/// One object, 2001/1, of two bytes.
const IMAGE: [u8; 16] = [1, 0, 1, 0x20, 1, 0, 14, 0, 0, 0, 2, 0, 2, 0, 0x34, 0x12];

fn client(port: u16) -> Client {
    Client::Udp {
        address: [10, 0, 0, 1].into(),
        port,
    }
}

/// The refusal of a request, which must leave the image and the answer buffer.
fn refused(server: &mut Server, port: u16, clock: u64, request: &[u8]) -> Refusal {
    let (mut image, mut answer) = (IMAGE, [FILL; ANSWER_SIZE]);
    let told = server.handle_request(&mut image, &mut answer, client(port), clock, request);
    assert_eq!(image, IMAGE);
    assert!(answer.iter().all(|&byte| byte == FILL));
    told.expect_err("a refusal")
}

fn joined(server: &mut Server, port: u16) {
    let (mut image, mut answer) = (IMAGE, [FILL; ANSWER_SIZE]);
    let told = server
        .handle_request(&mut image, &mut answer, client(port), 0, &HANDSHAKE)
        .expect("an answer");
    assert_eq!((told.client, told.length), (client(port), 12));
    assert_eq!(answer[..12], [1, 1, 0, 0, 0, 0, 0x10, 0, 0, 0, 0, 0]);
}

#[test]
fn requests_are_refused_by_number() {
    let mut server = Server::new();
    let before = *server.table();
    let most = (1 << 63) - 1;
    assert_eq!(
        refused(&mut server, 1, most + 1, &HANDSHAKE),
        Refusal::Clock
    );
    assert_eq!(
        refused(&mut server, 1, most, &[0; 3]),
        Refusal::ShortRequest
    );
    assert_eq!(
        refused(&mut server, 1, 0, &[0; 1_501]),
        Refusal::LongRequest
    );
    assert_eq!(*server.table(), before);
    (1..=8).for_each(|port| joined(&mut server, port));
    let full = *server.table();
    assert_eq!(refused(&mut server, 9, 0, &HANDSHAKE), Refusal::NoRoom);
    assert_eq!(*server.table(), full);
    assert_eq!(refused(&mut server, 1, 0, &HANDSHAKE), Refusal::Sequence);
    assert_eq!(refused(&mut server, 1, 0, &[0; 4]), Refusal::Empty);
}

#[test]
fn what_is_lent_wrong_is_refused() {
    let mut server = Server::new();
    let (mut image, mut answer) = (IMAGE, [FILL; ANSWER_SIZE]);
    let short = &mut answer[1..];
    let told = server.handle_request(&mut image, short, client(1), 0, &HANDSHAKE);
    assert_eq!(told, Err(Refusal::Lengths));
    assert_eq!(server.tick(&image, short, 0), Err(Refusal::Lengths));
    let cut = &mut image[1..];
    let told = server.handle_request(cut, &mut answer, client(1), 0, &HANDSHAKE);
    assert_eq!(told, Err(Refusal::Image));
    assert_eq!(server.tick(cut, &mut answer, 0), Err(Refusal::Image));
    assert_eq!(
        server.tick(&IMAGE, &mut answer, 1 << 63),
        Err(Refusal::Clock)
    );
    assert_eq!(server.next_action_time(), Ok(None));
}

#[test]
fn bytes_that_are_no_table_are_refused() {
    let mut table = *Server::new().table();
    assert_eq!(sdo::raw::next_action_time(&table[1..]).outcome, 1);
    table[12] = 5;
    let told = sdo::raw::next_action_time(&table).outcome;
    assert_eq!(sdo::raw::refusal(told), Refusal::Table);
}
