//! The exported calls with frames and answers in place of bytes.

use crate::{ffi, Lent};
use frames::{Answer, Frame, ANSWER_SIZE};

impl Lent {
    /// A state as the library forms it, in cells that held something else before.
    pub fn formed(nodes: usize) -> Lent {
        let mut lent = Lent::unformed(nodes);
        let report = ffi::form(&mut lent);
        assert_eq!((report.number, report.frames), (0, 0), "{nodes} nodes");
        lent
    }

    /// One batch: the answers, or the number with which it is refused whole.
    pub fn serve(&mut self, frames: &[Frame]) -> Result<Vec<Answer>, u32> {
        let requests: Vec<u8> = frames.iter().flat_map(Frame::bytes).collect();
        let mut room = vec![0; ANSWER_SIZE * frames.len()];
        let report = ffi::batch(self, &requests, &mut room);
        if report.number != 0 {
            return Err(report.number);
        }
        assert_eq!(report.frames, frames.len(), "frames of a batch that ran");
        let (answers, _) = room.as_chunks();
        Ok(answers.iter().copied().map(Answer::of_bytes).collect())
    }
}
