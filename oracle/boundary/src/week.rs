//! `boundary week`: walks kept open through many edits of their lists by other parties, then walked to their ends from both sides.

use crate::edited::Edited;
use crate::pair::{Disagreement, Pair};
use formulas::BITS;
use frames::grown::{element, grown, LIST};
use frames::numbers::*;
use frames::rng::Rng;
use frames::{Answer, Frame};
use std::collections::VecDeque;
use std::time::{Duration, Instant};

const NODES: usize = 65_536;
const EDITS_A_BATCH: usize = 4_096;
/// Of the lists that parties 1 to 5 own, with bits 1 to 5; each has about a thousand nodes.
const LENGTHS: [u32; 5] = [1_000, 3_000, 7_000, 15_000, 32_768];
const EDITORS: [u8; 3] = [HOST, 6, 7];
/// Steps of an owner's second walk before the edits; the first takes none.
const EARLY_STEPS: usize = 200;
/// One edit in so many begins anew, at the list that is walked.
const ANEW_ONE_IN: usize = 2_000;

struct Walk {
    owner: u8,
    number: u8,
    /// What it has not yet given.
    left: VecDeque<u32>,
}

struct Week {
    pair: Pair,
    rng: Rng,
    edited: Vec<Edited>,
    walks: Vec<Walk>,
    batches: usize,
    /// Free nodes when the edits begin, and the fewest after a batch of them.
    at_first: usize,
    fewest: usize,
}

pub fn week(edits: usize, seed: u64) -> bool {
    println!("week: seed {seed}, {edits} edits");
    let begin = Instant::now();
    let mut week = Week {
        pair: Pair::fresh(NODES),
        rng: Rng::new(seed),
        edited: Vec::new(),
        walks: Vec::new(),
        batches: 0,
        at_first: 0,
        fewest: NODES,
    };
    match week.run(edits) {
        Ok(steps) => week.print(edits, steps, begin.elapsed()),
        Err(Disagreement { told, .. }) => {
            println!("week: batch {}: {told}", week.batches);
            println!("week: again by boundary week --edits {edits} --seed {seed}");
            return false;
        }
    }
    true
}

impl Week {
    /// Answers the steps of the walks after all edits.
    fn run(&mut self, edits: usize) -> Result<usize, Disagreement> {
        for bits in BITS {
            self.own(bits)?;
        }
        self.hand_out()?;
        self.at_first = self.free_nodes()?;
        self.edits(edits / 2, true)?;
        // from here on the walks alone hold what they walk
        let releases = BITS.map(|owner| Frame::of(owner as u8, RELEASE, LIST, 0));
        self.serve(&releases.collect::<Vec<Frame>>())?;
        self.edits(edits - edits / 2, false)?;
        self.pair.hold_contents()?;
        let steps = self.walk_to_the_ends()?;
        self.let_all_go()?;
        Ok(steps)
    }

    /// One batch, in which every frame must be done.
    fn serve(&mut self, frames: &[Frame]) -> Result<Vec<Answer>, Disagreement> {
        self.batches += 1;
        let answers = self.pair.serve(frames)?;
        match answers.iter().position(|answer| answer.number != DONE) {
            None => Ok(answers),
            Some(number) => wrong(format!("{:?}: {:?}", frames[number], answers[number])),
        }
    }

    /// A list and two walks on it.
    fn own(&mut self, bits: u32) -> Result<(), Disagreement> {
        let (owner, length) = (bits as u8, LENGTHS[bits as usize - 1]);
        let mut frames = grown(owner, bits, length);
        frames.extend((0..WALKS).map(|number| Frame::of(owner, OPEN_WALK, LIST, number)));
        self.serve(&frames)?;
        for number in 0..WALKS {
            let left = (0..length).map(element).collect();
            self.walks.push(Walk {
                owner,
                number,
                left,
            });
        }
        self.steps(self.walks.len() - 1, EARLY_STEPS)
    }

    /// Each editor gets four lists, and a second slot for each.
    fn hand_out(&mut self) -> Result<(), Disagreement> {
        for number in 0..EDITORS.len() * usize::from(SLOTS / 2) {
            let owner = 1 + (number % LENGTHS.len()) as u8;
            let editor = EDITORS[number % EDITORS.len()];
            let slot = 2 * (number / EDITORS.len()) as u8;
            let length = LENGTHS[usize::from(owner) - 1];
            let edited = Edited::new(owner, editor, [slot, slot + 1], length);
            self.serve(&[edited.handed_over()])?;
            self.edited.push(edited);
        }
        Ok(())
    }

    fn edits(&mut self, edits: usize, with_new_beginnings: bool) -> Result<(), Disagreement> {
        let mut left = edits;
        while left > 0 {
            let now = left.min(EDITS_A_BATCH);
            left -= now;
            let mut frames = Vec::with_capacity(2 * now);
            for _ in 0..now {
                let number = self.rng.below(self.edited.len());
                let edited = &mut self.edited[number];
                if with_new_beginnings && self.rng.one_in(ANEW_ONE_IN) {
                    frames.extend(edited.anew());
                }
                frames.extend(edited.edit(&mut self.rng));
            }
            self.serve(&frames)?;
            self.fewest = self.free_nodes()?.min(self.fewest);
        }
        Ok(())
    }

    /// As the host is answered.
    fn free_nodes(&mut self) -> Result<usize, Disagreement> {
        let answers = self.serve(&[Frame::of(HOST, FREE_NODES, 0, 0)])?;
        Ok(answers[0].value as usize)
    }

    /// One batch of steps from either side by chance, held against the elements at the opening as well.
    fn steps(&mut self, walk: usize, steps: usize) -> Result<(), Disagreement> {
        let Walk {
            owner,
            number,
            left,
        } = &mut self.walks[walk];
        let (mut frames, mut wanted) = (Vec::new(), Vec::new());
        for _ in 0..steps {
            let forward = self.rng.one_in(2);
            let operation = if forward { NEXT } else { NEXT_BACK };
            frames.push(Frame::of(*owner, operation, *number, 0));
            wanted.push(if forward {
                left.pop_front()
            } else {
                left.pop_back()
            });
        }
        let given = self.serve(&frames)?;
        let given = given.iter().map(|answer| Some(answer.value));
        match given.eq(wanted) {
            true => Ok(()),
            false => wrong(String::from(
                "a walk gives other elements than at its opening",
            )),
        }
    }

    /// All that is left of each walk, and then nothing from either side.
    fn walk_to_the_ends(&mut self) -> Result<usize, Disagreement> {
        let mut steps = 0;
        for walk in 0..self.walks.len() {
            let left = self.walks[walk].left.len();
            self.steps(walk, left)?;
            steps += left;
            let Walk { owner, number, .. } = self.walks[walk];
            let beyond = [NEXT, NEXT_BACK].map(|step| Frame::of(owner, step, number, 0));
            let answers = self.pair.serve(&beyond)?;
            if answers.iter().any(|answer| answer.number != NOTHING_THERE) {
                return wrong(String::from("an ended walk goes on"));
            }
        }
        Ok(steps)
    }

    /// Then every node is free.
    fn let_all_go(&mut self) -> Result<(), Disagreement> {
        let mut frames: Vec<Frame> = self.edited.iter().map(Edited::release).collect();
        let close = |walk: &Walk| Frame::of(walk.owner, CLOSE_WALK, walk.number, 0);
        frames.extend(self.walks.iter().map(close));
        self.serve(&frames)?;
        match self.free_nodes()? {
            NODES => self.pair.hold_contents(),
            free => wrong(format!("{free} free nodes at the end")),
        }
    }

    fn print(&self, edits: usize, steps: usize, time: Duration) {
        let (walks, batches) = (self.walks.len(), self.batches);
        let (at_first, fewest, seconds) = (self.at_first, self.fewest, time.as_secs());
        println!("week: {edits} edits under {walks} open walks in {batches} batches agree, then {steps} steps from both sides, in {seconds} s");
        println!("week: free nodes: {at_first} when the edits began, {fewest} at the fewest, all {NODES} at the end");
    }
}

fn wrong<T>(told: String) -> Result<T, Disagreement> {
    Err(Disagreement::of_batch(told))
}
