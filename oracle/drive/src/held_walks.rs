//! Two walks of one version, held while its slots are released and the list is edited.

use crate::ours::Ours;
use crate::subject::Subject;
use crate::walks::{MOST, POOL, WALKED_BITS};
use frames::grown::{element, grown, LIST};
use frames::numbers::*;
use frames::{Answer, Frame};

/// Parties, each with one of its walks.
const WALK: (u8, u8) = (2, 0);
const OTHER_WALK: (u8, u8) = (7, 1);
/// The host's slots of the list that is edited.
const EDITED: [u8; 2] = [2, 3];

/// Prints and answers whether all is right.
pub fn held_walks() -> bool {
    let mut wrong = Vec::new();
    let (mut steps, mut audits) = (0, 0);
    for bits in WALKED_BITS {
        for length in 0..=MOST {
            for from_back in 0..=length.min(6) {
                let mut held = Held::new(bits, length, from_back);
                held.run();
                steps += held.steps;
                audits += held.ours.audits;
                let told = held.wrong.into_iter().chain(held.ours.flaws);
                wrong.extend(told.map(|how| format!("{}: {how}", held.what)));
            }
        }
    }
    for what in wrong.iter().take(20) {
        println!("held walks: {what}");
    }
    println!(
        "held walks: {steps} steps, {} wrong, {audits} states audited by both audits",
        wrong.len()
    );
    wrong.is_empty()
}

struct Held {
    ours: Ours,
    what: String,
    length: u32,
    /// Every so-many-th step is from the back; 0 is never.
    from_back: u32,
    /// The edited list is in the first.
    edited: [u8; 2],
    steps: usize,
    wrong: Vec<String>,
}

fn frame(operation: u8, slot: u8, destination: u8) -> Frame {
    Frame::of(HOST, operation, slot, destination)
}

fn close((party, walk): (u8, u8)) -> Frame {
    Frame::of(party, CLOSE_WALK, walk, 0)
}

impl Held {
    fn new(bits: u32, length: u32, from_back: u32) -> Held {
        let mut ours = Ours::with_pool(POOL);
        ours.done(&grown(HOST, bits, length));
        Held {
            ours,
            what: format!("bits {bits}, length {length}, each {from_back}th from the back"),
            length,
            from_back,
            edited: EDITED,
            steps: 0,
            wrong: Vec::new(),
        }
    }

    /// From here on the walks alone hold the list.
    fn begin(&mut self) {
        for (party, walk) in [WALK, OTHER_WALK] {
            self.ours.done(&[
                Frame::hand_over((HOST, LIST), (party, LIST)),
                Frame::of(party, OPEN_WALK, LIST, walk),
                Frame::of(party, RELEASE, LIST, 0),
            ]);
        }
        self.ours.done(&[
            frame(PUSH_BACK, LIST, self.edited[0]),
            frame(RELEASE, LIST, 0),
        ]);
    }

    fn run(&mut self) {
        self.begin();
        let (mut front, mut back) = (0, self.length);
        for step in 0..self.length + 3 {
            let from_back = self.from_back > 0 && step % self.from_back == 0;
            let expected = if front == back {
                Answer::refused(NOTHING_THERE)
            } else if from_back {
                back -= 1;
                Answer::done(0, element(back))
            } else {
                front += 1;
                Answer::done(0, element(front - 1))
            };
            self.take(WALK, from_back, expected);
            self.edit(step);
        }
        self.ours.done(&[close(WALK)]);
        for index in 0..self.length {
            self.take(OTHER_WALK, false, Answer::done(0, element(index)));
        }
        self.ours.done(&[close(OTHER_WALK)]);
        self.ours.batch(&EDITED.map(|slot| frame(RELEASE, slot, 0)));
        if self.ours.batch(&[frame(FREE_NODES, 0, 0)]) != [Answer::done(0, POOL as u32)] {
            self.wrong.push("not everything is given back".into());
        }
    }

    fn take(&mut self, (party, walk): (u8, u8), back: bool, expected: Answer) {
        self.steps += 1;
        let operation = if back { NEXT_BACK } else { NEXT };
        let answers = self.ours.batch(&[Frame::of(party, operation, walk, 0)]);
        if answers != [expected] {
            let told = format!("walk of party {party}: {answers:?}, not {expected:?}");
            self.wrong.push(told);
        }
    }

    /// The edited list becomes what an edit makes of it, where nodes are enough; the one before it stays until the next edit.
    fn edit(&mut self, step: u32) {
        let [from, to] = self.edited;
        let operation = [SET, DROP_LAST, PUSH_BACK][step as usize % 3];
        let edit = Frame {
            value: step,
            ..frame(operation, from, to)
        };
        let answers = self.ours.batch(&[frame(RELEASE, to, 0), edit]);
        if answers[1].number == DONE {
            self.edited = [to, from];
        }
    }
}
