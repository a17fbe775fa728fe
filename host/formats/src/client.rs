//! A client of the server, and its eight bytes in records, scripts and calls.

use std::fmt;
use std::net::{Ipv4Addr, SocketAddrV4};

/// Who sends a request.
#[derive(Debug, Clone, Copy, PartialEq, Eq, Hash)]
pub enum Client {
    /// A node on the bus, with the six MAC bytes in wire order.
    Asnd {
        node: u8,
        mac: [u8; 6],
    },
    Udp {
        address: Ipv4Addr,
        port: u16,
    },
}

const ASND: u8 = 0;
const UDP: u8 = 1;

impl Client {
    pub fn to_bytes(self) -> [u8; 8] {
        match self {
            Client::Asnd { node, mac } => {
                let [a, b, c, d, e, f] = mac;
                [ASND, node, a, b, c, d, e, f]
            }
            Client::Udp { address, port } => {
                let [a, b, c, d] = address.octets();
                let [low, high] = port.to_le_bytes();
                [UDP, a, b, c, d, low, high, 0]
            }
        }
    }

    /// None where the kind is none; the zero byte is not looked at.
    pub fn from_bytes(bytes: [u8; 8]) -> Option<Client> {
        let [kind, a, b, c, d, e, f, g] = bytes;
        match kind {
            ASND => Some(Client::Asnd {
                node: a,
                mac: [b, c, d, e, f, g],
            }),
            UDP => Some(Client::Udp {
                address: Ipv4Addr::new(a, b, c, d),
                port: u16::from_le_bytes([e, f]),
            }),
            _ => None,
        }
    }

    /// The eight bytes as a number, the first lowest.
    pub fn number(self) -> u64 {
        u64::from_le_bytes(self.to_bytes())
    }

    pub fn from_number(number: u64) -> Option<Client> {
        Client::from_bytes(number.to_le_bytes())
    }
}

impl From<SocketAddrV4> for Client {
    fn from(from: SocketAddrV4) -> Client {
        Client::Udp {
            address: *from.ip(),
            port: from.port(),
        }
    }
}

impl fmt::Display for Client {
    fn fmt(&self, f: &mut fmt::Formatter) -> fmt::Result {
        match self {
            Client::Asnd { node, mac } => {
                write!(f, "node {node}")?;
                mac.iter().enumerate().try_for_each(|(at, byte)| {
                    write!(f, "{}{byte:02X}", if at == 0 { " " } else { ":" })
                })
            }
            Client::Udp { address, port } => write!(f, "{address}:{port}"),
        }
    }
}

#[cfg(test)]
mod tests {
    use super::*;

    #[test]
    fn the_bytes_of_both_kinds() {
        let udp = Client::from(SocketAddrV4::new(Ipv4Addr::new(192, 168, 100, 7), 3819));
        assert_eq!(udp.to_bytes(), [1, 192, 168, 100, 7, 0xEB, 0x0E, 0]);
        assert_eq!(udp.to_string(), "192.168.100.7:3819");
        let node = Client::Asnd {
            node: 240,
            mac: [1, 2, 3, 4, 5, 6],
        };
        assert_eq!(node.to_bytes(), [0, 240, 1, 2, 3, 4, 5, 6]);
        assert_eq!(node.number(), 0x0605_0403_0201_F000);
        assert_eq!(node.to_string(), "node 240 01:02:03:04:05:06");
        for client in [udp, node] {
            assert_eq!(Client::from_number(client.number()), Some(client));
        }
        assert_eq!(Client::from_number(2), None);
    }
}
