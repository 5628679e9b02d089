//! Our side: frames made beforehand, sent as one batch, their answers read.

use super::instructions::jumperloft_counted;
use super::row::{Row, Work};
use super::runner::{sum_in_order, Runner};
use frames::{Frame, ANSWER_SIZE};
use lent::{ffi, Lent, SLOTS};

pub struct Ours {
    row: Row,
    before: Lent,
    lent: Lent,
    /// None where the row is of forming.
    batch: Option<Vec<u8>>,
    room: Vec<u8>,
    answered: u64,
}

impl Ours {
    pub fn new(row: Row) -> Ours {
        let mut before = Lent::formed(row.pool);
        let mut room = Vec::new();
        send(&mut before, &bytes(&row.frames_before()), &mut room);
        let batch = (row.work != Work::Form).then(|| bytes(&row.frames()));
        Ours {
            row,
            lent: before.clone(),
            before,
            batch,
            room,
            answered: 0,
        }
    }

    /// Counts what the audit of one run takes, as an empty batch before it.
    pub fn audit(&mut self) {
        jumperloft_counted(&mut || {
            send(&mut self.lent, &[], &mut self.room);
        });
    }
}

impl Runner for Ours {
    fn prepare(&mut self) {
        if self.row.edits() {
            self.lent.clone_from(&self.before);
        }
    }

    fn run(&mut self) {
        if self.row.work == Work::Form {
            assert_eq!(ffi::form(&mut self.lent).number, 0);
        }
        if let Some(batch) = &self.batch {
            self.answered = send(&mut self.lent, batch, &mut self.room);
        }
    }

    /// Of one pass: all passes read the same.
    fn sum(&self) -> u64 {
        let read = self.answered / u64::from(self.row.passes);
        let versions = (0..SLOTS).map(|slot| self.lent.version(slot));
        let live = versions.filter(|version| version.live == 1);
        live.fold(read, |sum, version| {
            sum_in_order(sum, self.lent.elements(version).into_iter())
        })
    }
}

fn bytes(frames: &[Frame]) -> Vec<u8> {
    frames.iter().flat_map(Frame::bytes).collect()
}

/// Adds up the values answered; every frame must be done.
fn send(lent: &mut Lent, batch: &[u8], room: &mut Vec<u8>) -> u64 {
    room.resize(batch.len() / 2, 0);
    assert_eq!(ffi::batch(lent, batch, room).number, 0);
    let (mut refused, mut sum) = (0, 0);
    for answer in room.chunks_exact(ANSWER_SIZE) {
        refused |= answer[0];
        sum += u64::from(u32::from_be_bytes([
            answer[2], answer[3], answer[4], answer[5],
        ]));
    }
    assert_eq!(refused, 0, "a frame is refused");
    sum
}
