//! One state judged by both audits.

use crate::plain_audit::{self, Verdict};
use crate::subject::free_nodes;
use frames::numbers::ILL_FORMED;
use frames::{Answer, Frame};
use lent::Lent;

#[derive(Debug)]
pub struct Both {
    pub ours: Result<usize, u32>,
    pub plain: Verdict,
}

impl Both {
    /// Both accept and count the same free nodes, or both refuse, ours with 11.
    pub fn agrees(&self) -> bool {
        match (&self.ours, &self.plain) {
            (Ok(ours), Ok(plain)) => ours == plain,
            (Err(number), Err(_)) => *number == u32::from(ILL_FORMED),
            _ => false,
        }
    }
}

pub fn judge(lent: &mut Lent) -> Both {
    judge_and_serve(lent, &[]).0
}

/// Ours judges as a batch begins, whose first frame asks for the free nodes. A batch that is refused has no answers.
pub fn judge_and_serve(lent: &mut Lent, frames: &[Frame]) -> (Both, Vec<Answer>) {
    let plain = plain_audit::audit(lent);
    let (ours, answers) = match lent.serve(&[&[free_nodes()], frames].concat()) {
        Ok(mut answers) => (Ok(answers.remove(0).value as usize), answers),
        Err(number) => (Err(number), Vec::new()),
    };
    (Both { ours, plain }, answers)
}
