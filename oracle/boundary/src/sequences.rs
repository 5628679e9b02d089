//! `boundary sequences`: every sequence of a few calls over a small alphabet, on 8 nodes.

use crate::pair::{Disagreement, Pair};
use crate::scenes::frame;
use frames::numbers::*;
use frames::{Answer, Frame};
use lent::Lent;
use session::state::State;

const NODES: usize = 8;

struct Beginning {
    frames: Vec<Frame>,
    /// Every sequence of this length is one batch.
    whole: usize,
    /// Up to this length each call is a batch, and no call follows a refused one: the state is the one before it.
    steps: usize,
}

/// Nothing, or a list of bits 1 and three elements, one taken by an open walk, from where there is more to do and sequences are shorter by one.
fn beginnings(calls: usize) -> [Beginning; 2] {
    let grown = vec![
        new(),
        push(0, 1),
        frame(RELEASE, 0, 0),
        push(1, 0),
        frame(RELEASE, 1, 0),
        push(0, 1),
        frame(RELEASE, 0, 0),
        frame(OPEN_WALK, 1, 0),
        frame(NEXT, 0, 0),
    ];
    [
        Beginning {
            frames: Vec::new(),
            whole: calls,
            steps: calls + 3,
        },
        Beginning {
            frames: grown,
            whole: calls - 1,
            steps: calls + 1,
        },
    ]
}

fn new() -> Frame {
    Frame {
        index: 1,
        ..frame(NEW, 0, 0)
    }
}

fn push(slot: u8, destination: u8) -> Frame {
    Frame {
        value: 4,
        ..frame(PUSH_BACK, slot, destination)
    }
}

fn set(slot: u8, destination: u8) -> Frame {
    Frame {
        value: 9,
        ..frame(SET, slot, destination)
    }
}

fn alphabet() -> Vec<Frame> {
    vec![
        new(),
        push(0, 1),
        push(1, 0),
        push(1, 2),
        set(0, 1),
        set(1, 0),
        frame(DROP_LAST, 0, 1),
        frame(DROP_LAST, 1, 0),
        frame(CLONE, 0, 2),
        frame(RELEASE, 0, 0),
        frame(RELEASE, 1, 0),
        frame(RELEASE, 2, 0),
        frame(OPEN_WALK, 0, 0),
        frame(OPEN_WALK, 1, 0),
        frame(NEXT, 0, 0),
        frame(NEXT_BACK, 0, 0),
        frame(CLOSE_WALK, 0, 0),
        frame(GET, 0, 0),
        frame(COMPARE, 0, 1),
    ]
}

/// For at least one call.
pub fn sequences(calls: usize) -> bool {
    for beginning in beginnings(calls) {
        let mut tree = Tree {
            alphabet: alphabet(),
            sequence: Vec::new(),
            calls: 0,
            no_nodes: 0,
        };
        let tried = tree.whole(&beginning).and_then(|sequences| {
            tree.sequence.clone_from(&beginning.frames);
            let lent = tree.begun()?;
            let steps = tree.steps(&lent, beginning.steps)?;
            Ok((sequences, steps))
        });
        match tried {
            Ok((sequences, steps)) => tree.print(&beginning, sequences, steps),
            Err(disagreement) => {
                tree.tell(&disagreement);
                return false;
            }
        }
    }
    true
}

struct Tree {
    alphabet: Vec<Frame>,
    /// The calls up to where the search is.
    sequence: Vec<Frame>,
    calls: usize,
    no_nodes: usize,
}

impl Tree {
    /// Answers to the sequence by the model from a fresh state.
    fn wanted(&mut self) -> (State, Vec<Answer>) {
        let mut model = State::fresh(NODES);
        let served = self.sequence.iter().map(|frame| model.serve(frame));
        let answers = served.collect();
        (model, answers)
    }

    /// Every sequence of the length, and so its shorter ones, as one batch; answers how many.
    fn whole(&mut self, beginning: &Beginning) -> Result<usize, Disagreement> {
        let Beginning { frames, whole, .. } = beginning;
        let letters = self.alphabet.len();
        let count = letters.pow(*whole as u32);
        let fresh = Lent::formed(NODES);
        let mut lent = fresh.clone();
        for number in 0..count {
            self.sequence.clone_from(frames);
            let mut rest = number;
            for _ in 0..*whole {
                self.sequence.push(self.alphabet[rest % letters]);
                rest /= letters;
            }
            let (model, answers) = self.wanted();
            lent.clone_from(&fresh);
            let mut pair = Pair { lent, model };
            pair.batch(&self.sequence, &answers, 0)?;
            lent = pair.lent;
            self.calls += whole;
        }
        Ok(count)
    }

    fn begun(&mut self) -> Result<Lent, Disagreement> {
        let mut pair = Pair::fresh(NODES);
        pair.serve(&self.sequence)?;
        Ok(pair.lent)
    }

    /// Each call from a state, a batch of its own, and what follows it; answers how many sequences.
    fn steps(&mut self, before: &Lent, left: usize) -> Result<usize, Disagreement> {
        if left == 0 {
            return Ok(0);
        }
        let mut sequences = 0;
        let mut lent = before.clone();
        for letter in 0..self.alphabet.len() {
            self.sequence.push(self.alphabet[letter]);
            lent.clone_from(before);
            let (answer, after) = self.step(lent)?;
            lent = after;
            sequences += 1;
            if answer.number == DONE {
                sequences += self.steps(&lent, left - 1)?;
            } else if lent != *before {
                let told = String::from("a refused call changed the state");
                return Err(Disagreement::of_batch(told));
            }
            self.sequence.pop();
        }
        Ok(sequences)
    }

    fn step(&mut self, lent: Lent) -> Result<(Answer, Lent), Disagreement> {
        let (model, answers) = self.wanted();
        let (frame, answer) = match (self.sequence.last(), answers.last()) {
            (Some(frame), Some(answer)) => (*frame, *answer),
            _ => unreachable!("a step has a call"),
        };
        let mut pair = Pair { lent, model };
        pair.batch(&[frame], &[answer], 0)?;
        if answer.number == DONE {
            pair.hold_contents()?;
        }
        self.calls += 1;
        self.no_nodes += usize::from(answer.number == NO_NODES);
        Ok((answer, pair.lent))
    }

    fn print(&self, beginning: &Beginning, sequences: usize, stepped: usize) {
        let Beginning {
            frames,
            whole,
            steps,
        } = beginning;
        let (calls, no_nodes, letters) = (self.calls, self.no_nodes, self.alphabet.len());
        let after = frames.len();
        println!("sequences: {letters} calls after {after} first ones: {sequences} sequences of {whole} as one batch, {stepped} of up to {steps} step by step agree; {calls} calls, {no_nodes} steps answered 10");
    }

    fn tell(&self, disagreement: &Disagreement) {
        println!("sequences: {}; the calls were:", disagreement.told);
        for frame in &self.sequence {
            print!("{}", frame.line());
        }
    }
}
