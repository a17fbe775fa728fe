//! The four bytes before a frame in a UDP datagram: 06 (an ASnd message), the
//! node it goes to, the node it comes from, 05 (the SDO service).

/// The UDP port of POWERLINK's SDO.
pub const PORT: u16 = 3_819;

/// More than any UDP datagram over IPv4 holds.
pub const MOST_DATAGRAM: usize = 65_536;

const MESSAGE: u8 = 6;
const SERVICE: u8 = 5;

/// The two node bytes, which the server does not look at.
#[derive(Debug, Clone, Copy, PartialEq, Eq, Default)]
pub struct Nodes {
    pub to: u8,
    pub from: u8,
}

impl Nodes {
    /// Those of an answer: it goes where the request came from.
    pub fn swapped(self) -> Nodes {
        Nodes {
            to: self.from,
            from: self.to,
        }
    }
}

/// The nodes and the frame, or None where this is no SDO datagram.
pub fn open(datagram: &[u8]) -> Option<(Nodes, &[u8])> {
    match datagram {
        [MESSAGE, to, from, SERVICE, frame @ ..] => Some((
            Nodes {
                to: *to,
                from: *from,
            },
            frame,
        )),
        _ => None,
    }
}

pub fn wrap(nodes: Nodes, frame: &[u8]) -> Vec<u8> {
    [&[MESSAGE, nodes.to, nodes.from, SERVICE], frame].concat()
}

#[cfg(test)]
mod tests {
    use super::*;

    #[test]
    fn only_sdo_datagrams_open() {
        let nodes = Nodes { to: 1, from: 253 };
        assert_eq!(open(&wrap(nodes, b"frame")), Some((nodes, &b"frame"[..])));
        assert_eq!(open(&[6, 0, 0, 5]), Some((Nodes::default(), &[][..])));
        for other in [&[][..], &[6, 0, 0], &[5, 0, 0, 5, 1], &[6, 0, 0, 4, 1]] {
            assert_eq!(open(other), None);
        }
    }
}
