//! A frame and an answer, as bytes and as lines of hexadecimal; what frames are made from.

pub mod grown;
pub mod numbers;
pub mod rng;

use numbers::{DONE, HAND_OVER, HOST, NOT_A_FRAME};

pub const FRAME_SIZE: usize = 12;
pub const ANSWER_SIZE: usize = 6;
const DIGITS: usize = 2 * FRAME_SIZE;

#[derive(Clone, Copy, Debug, Default, PartialEq, Eq)]
pub struct Frame {
    pub party: u8,
    pub operation: u8,
    pub slot: u8,
    pub destination: u8,
    pub index: u32,
    pub value: u32,
}

impl Frame {
    /// Index and value are 0.
    pub fn of(party: u8, operation: u8, slot: u8, destination: u8) -> Frame {
        Frame {
            party,
            operation,
            slot,
            destination,
            ..Frame::default()
        }
    }

    /// The list in a slot of one party, to a slot of another.
    pub fn hand_over((from, slot): (u8, u8), (to, destination): (u8, u8)) -> Frame {
        Frame {
            index: u32::from(from),
            value: u32::from(to),
            ..Frame::of(HOST, HAND_OVER, slot, destination)
        }
    }

    /// None for every line, its line feed included, that isn't a frame.
    pub fn of_line(line: &[u8]) -> Option<Frame> {
        let digits: &[u8; DIGITS] = line.strip_suffix(b"\n")?.try_into().ok()?;
        let mut bytes = [0; FRAME_SIZE];
        for (byte, pair) in bytes.iter_mut().zip(digits.chunks(2)) {
            *byte = 16 * digit(pair[0])? + digit(pair[1])?;
        }
        Some(Frame::of_bytes(bytes))
    }

    pub fn of_bytes(bytes: [u8; FRAME_SIZE]) -> Frame {
        let [party, operation, slot, destination, i0, i1, i2, i3, v0, v1, v2, v3] = bytes;
        Frame {
            party,
            operation,
            slot,
            destination,
            index: u32::from_be_bytes([i0, i1, i2, i3]),
            value: u32::from_be_bytes([v0, v1, v2, v3]),
        }
    }

    pub fn bytes(&self) -> [u8; FRAME_SIZE] {
        let mut bytes = [0; FRAME_SIZE];
        bytes[..4].copy_from_slice(&[self.party, self.operation, self.slot, self.destination]);
        bytes[4..8].copy_from_slice(&self.index.to_be_bytes());
        bytes[8..].copy_from_slice(&self.value.to_be_bytes());
        bytes
    }

    pub fn line(&self) -> String {
        let Frame {
            party,
            operation,
            slot,
            destination,
            index,
            value,
        } = self;
        format!("{party:02X}{operation:02X}{slot:02X}{destination:02X}{index:08X}{value:08X}\n")
    }
}

/// Capitals alone.
fn digit(character: u8) -> Option<u8> {
    match character {
        b'0'..=b'9' => Some(character - b'0'),
        b'A'..=b'F' => Some(character - b'A' + 10),
        _ => None,
    }
}

#[derive(Clone, Copy, Debug, PartialEq, Eq)]
pub struct Answer {
    pub number: u8,
    pub fresh: u8,
    pub value: u32,
}

impl Answer {
    pub const OF_NO_FRAME: Answer = Answer::refused(NOT_A_FRAME);

    pub fn done(fresh: u8, value: u32) -> Answer {
        let number = DONE;
        Answer {
            number,
            fresh,
            value,
        }
    }

    pub const fn refused(number: u8) -> Answer {
        let (fresh, value) = (0, 0);
        Answer {
            number,
            fresh,
            value,
        }
    }

    pub fn of_bytes(bytes: [u8; ANSWER_SIZE]) -> Answer {
        let [number, fresh, v0, v1, v2, v3] = bytes;
        Answer {
            number,
            fresh,
            value: u32::from_be_bytes([v0, v1, v2, v3]),
        }
    }

    pub fn bytes(&self) -> [u8; ANSWER_SIZE] {
        let [v0, v1, v2, v3] = self.value.to_be_bytes();
        [self.number, self.fresh, v0, v1, v2, v3]
    }

    pub fn line(&self) -> String {
        let Answer {
            number,
            fresh,
            value,
        } = self;
        format!("{number:02X}{fresh:02X}{value:08X}\n")
    }
}

#[cfg(test)]
mod tests {
    use super::*;

    #[test]
    fn a_frames_line_is_read_back() {
        let line = b"01050203DEADBEEF0000ABCD\n";
        let frame = Frame::of_line(line).expect("a frame");
        assert_eq!((frame.party, frame.operation), (1, 5));
        assert_eq!((frame.slot, frame.destination), (2, 3));
        assert_eq!((frame.index, frame.value), (0xDEAD_BEEF, 0xABCD));
        assert_eq!(frame.line().as_bytes(), line);
        assert_eq!(Frame::of_bytes(frame.bytes()), frame);
    }

    #[test]
    fn an_answers_bytes_are_read_back() {
        let answer = Answer::done(2, 0xDEAD_BEEF);
        assert_eq!(answer.bytes(), [0, 2, 0xDE, 0xAD, 0xBE, 0xEF]);
        assert_eq!(Answer::of_bytes(answer.bytes()), answer);
    }

    #[test]
    fn other_lines_are_no_frames() {
        let lines: [&[u8]; 9] = [
            b"\n",
            b"01050203DEADBEEF0000ABCD",
            b"01050203DEADBEEF0000ABC\n",
            b"01050203DEADBEEF0000ABCDE\n",
            b"01050203DEADBEEF0000ABCD\r\n",
            b"01050203deadbeef0000ABCD\n",
            b"01050203DEADBEEF0000ABCG\n",
            b"01050203DEADBEEF 000ABCD\n",
            b"01050203DEADBEEF0000ABC\xFF\n",
        ];
        for line in lines {
            assert_eq!(Frame::of_line(line), None, "{line:?}");
        }
    }
}
