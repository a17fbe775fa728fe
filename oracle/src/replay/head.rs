//! A frame's sequence header: the first four bytes.

/// Numbers below 64, marks below 4.
#[derive(Debug, Clone, Copy, PartialEq, Eq)]
pub struct Head {
    pub receive: u8,
    pub receive_mark: u8,
    pub send: u8,
    pub send_mark: u8,
}

impl Head {
    /// Of a frame of four bytes or more; bytes 2 and 3 are not looked at.
    pub fn read(frame: &[u8]) -> Option<Self> {
        let &[first, second, _, _, ..] = frame else {
            return None;
        };
        Some(Self {
            receive: first >> 2,
            receive_mark: first & 3,
            send: second >> 2,
            send_mark: second & 3,
        })
    }

    pub fn frame(&self, command: &[u8]) -> Vec<u8> {
        let mut bytes = vec![
            self.receive << 2 | self.receive_mark,
            self.send << 2 | self.send_mark,
            0,
            0,
        ];
        bytes.extend(command);
        bytes
    }
}
