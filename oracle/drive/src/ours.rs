//! Our code as a subject: before each batch both audits must accept the state and count its free nodes alike.

use crate::subject::Subject;
use crate::verdict::judge_and_serve;
use frames::{Answer, Frame};
use lent::Lent;

pub struct Ours {
    pub lent: Lent,
    pub audits: usize,
    pub flaws: Vec<String>,
}

impl Ours {
    pub fn with_pool(nodes: usize) -> Ours {
        Ours {
            lent: Lent::formed(nodes),
            audits: 0,
            flaws: Vec::new(),
        }
    }
}

impl Subject for Ours {
    fn batch(&mut self, frames: &[Frame]) -> Vec<Answer> {
        let (verdict, answers) = judge_and_serve(&mut self.lent, frames);
        self.audits += 1;
        let told = || format!("before {:?}: {verdict:?}", frames.first());
        // no script goes on after a batch that did not run
        assert!(verdict.ours.is_ok(), "{}", told());
        if !verdict.agrees() {
            self.flaws.push(told());
        }
        answers
    }
}
