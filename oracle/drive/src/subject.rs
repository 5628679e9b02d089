//! What a script runs on, our code or the original: a state of so many nodes that is served frames.

use frames::numbers::*;
use frames::{Answer, Frame};

pub trait Subject {
    fn batch(&mut self, frames: &[Frame]) -> Vec<Answer>;

    /// A batch of its own for each.
    fn each(&mut self, frames: &[Frame]) -> Vec<Answer> {
        let answers = frames.iter().flat_map(|frame| self.batch(&[*frame]));
        answers.collect()
    }

    /// The same for frames that a script relies on.
    fn done(&mut self, frames: &[Frame]) {
        let answers = self.each(frames);
        let numbers = frames.iter().zip(answers.iter().map(|it| it.number));
        for (frame, number) in numbers {
            assert_eq!(number, DONE, "{frame:?}");
        }
    }
}

#[cfg(feature = "original")]
impl Subject for session::state::State {
    fn batch(&mut self, frames: &[Frame]) -> Vec<Answer> {
        frames.iter().map(|frame| self.serve(frame)).collect()
    }
}

/// Free nodes, as the host may ask.
pub fn free_nodes() -> Frame {
    Frame::of(HOST, FREE_NODES, 0, 0)
}
