//! `boundary lengths`: eight parties at work around a list of each length where the shape changes, under walks that stay open.

use crate::around::{Around, KEPT_WALK};
use crate::pair::{Disagreement, Pair};
use formulas::{degree, height, nodes, BITS, LENGTH_LIMIT};
use frames::grown::{grown, LIST};
use frames::numbers::*;
use frames::rng::Rng;
use frames::{Answer, Frame};
use session::choice;
use std::collections::BTreeSet;

const FRAMES: usize = 1_200;
const LARGEST_BATCH: usize = 60;
const FRAMES_TO_GROW: usize = 16_384;
const ROOMY: usize = 1_500;
const NUMBERS: usize = NO_NODES as usize + 1;
/// Whatever the bits are.
const NOTED: [u32; 8] = [31, 32, 33, 1_023, 1_024, 1_025, 32_767, 32_768];

#[derive(Default)]
struct Count {
    lists: usize,
    frames: usize,
    steps: usize,
    done: [usize; OPERATIONS],
    numbers: [usize; NUMBERS],
}

pub fn lengths(rounds: usize, seed: u64) -> bool {
    println!("lengths: seed {seed}, {rounds} rounds");
    let mut rng = Rng::new(seed);
    let mut count = Count::default();
    for round in 0..rounds {
        for bits in BITS {
            for length in lengths_of(bits) {
                let around = Around {
                    rng: Rng::new(rng.word().into()),
                    bits,
                    length,
                };
                let mut stay = Stay::new(around);
                if let Err(disagreement) = stay.run(&mut count) {
                    stay.tell(&disagreement, round);
                    println!("lengths: again by boundary lengths --rounds {rounds} --seed {seed}");
                    return false;
                }
            }
        }
    }
    count.print();
    let everything = count.has_everything();
    if !everything {
        println!("lengths: an operation is never done, or a number never answered");
    }
    everything
}

/// Powers of the degree and what stands beside them, and the noted ones.
fn lengths_of(bits: u32) -> BTreeSet<u32> {
    let powers = (0..).map(|k| degree(bits).pow(k));
    let powers = powers.take_while(|power| *power <= LENGTH_LIMIT);
    let beside = powers.flat_map(|power| [power - 1, power, power + 1]);
    let within = |length: &u32| *length <= LENGTH_LIMIT;
    beside.chain(NOTED).filter(within).collect()
}

/// A state with a list of the length, for as long as frames stay around it.
struct Stay {
    pair: Pair,
    around: Around,
    nodes: usize,
    batch: usize,
}

impl Stay {
    /// In a roomy pool, or in one where few nodes are free.
    fn new(mut around: Around) -> Stay {
        let Around { bits, length, .. } = around;
        let to_push = height(bits, length) as usize + 1;
        let spare = match around.rng.one_in(2) {
            true => ROOMY,
            false => to_push * (1 + around.rng.below(12)),
        };
        let nodes = nodes(bits, length) as usize + spare;
        Stay {
            pair: Pair::fresh(nodes),
            around,
            nodes,
            batch: 0,
        }
    }

    fn run(&mut self, count: &mut Count) -> Result<(), Disagreement> {
        let Around { bits, length, .. } = self.around;
        let begin: Vec<Frame> = grown(HOST, bits, length)
            .into_iter()
            .chain(handed_out())
            .collect();
        for frames in begin.chunks(FRAMES_TO_GROW) {
            let answers = self.pair.serve(frames)?;
            count.add(frames, &answers);
        }
        let end = count.frames + FRAMES;
        while count.frames < end {
            self.frames(end - count.frames, count)?;
        }
        self.pair.hold_contents()?;
        self.walk_to_the_end(count)?;
        self.let_all_go(count)?;
        count.lists += 1;
        Ok(())
    }

    fn frames(&mut self, most: usize, count: &mut Count) -> Result<(), Disagreement> {
        let asked = self.around.rng.below(LARGEST_BATCH + 1).min(most);
        let (mut frames, mut answers) = (Vec::new(), Vec::new());
        for _ in 0..asked {
            let frame = self.around.frame(&self.pair.model);
            answers.push(self.pair.model.serve(&frame));
            frames.push(frame);
        }
        count.add(&frames, &answers);
        self.batch += 1;
        self.pair.batch(&frames, &answers, 0)?;
        let (free, wanted) = (self.pair.lent.free_nodes(), self.pair.model.free_nodes());
        if free != wanted {
            let told = format!("{free} free nodes, not {wanted}");
            return Err(Disagreement::of_batch(told));
        }
        Ok(())
    }

    /// One party's, from both sides by chance, and one step beyond it.
    fn walk_to_the_end(&mut self, count: &mut Count) -> Result<(), Disagreement> {
        let rng = &mut self.around.rng;
        let party = rng.byte_below(PARTIES);
        let mut step = || Frame::of(party, rng.of(&[NEXT, NEXT_BACK]), KEPT_WALK, 0);
        let steps: Vec<Frame> = (0..=self.around.length).map(|_| step()).collect();
        let answers = self.pair.serve(&steps)?;
        count.add(&steps, &answers);
        count.steps += answers.iter().filter(|it| it.number == DONE).count();
        match answers.last() {
            Some(last) if last.number == NOTHING_THERE => Ok(()),
            _ => Err(Disagreement::of_batch(String::from("a walk has no end"))),
        }
    }

    /// Then every node is free.
    fn let_all_go(&mut self, count: &mut Count) -> Result<(), Disagreement> {
        let state = &self.pair.model;
        let mut frames = Vec::new();
        for party in 0..PARTIES {
            let close = |walk| Frame::of(party, CLOSE_WALK, walk, 0);
            frames.extend(choice::walks(state, party, true).into_iter().map(close));
            let release = |slot| Frame::of(party, RELEASE, slot, 0);
            frames.extend(choice::slots(state, party, true).into_iter().map(release));
        }
        let answers = self.pair.serve(&frames)?;
        count.add(&frames, &answers);
        match self.pair.lent.free_nodes() {
            free if free == self.nodes => self.pair.hold_contents(),
            free => Err(Disagreement::of_batch(format!(
                "{free} free nodes at the end"
            ))),
        }
    }

    fn tell(&self, disagreement: &Disagreement, round: usize) {
        let Around { bits, length, .. } = self.around;
        let Disagreement { frame, told } = disagreement;
        let frame = frame.map_or(String::new(), |frame| format!(", frame {frame}"));
        let (nodes, batch) = (self.nodes, self.batch);
        println!("lengths: round {round}, bits {bits}, length {length}, {nodes} nodes, batch {batch}{frame}: {told}");
    }
}

/// The host's list goes to every other party, and each of the eight opens its walk.
fn handed_out() -> impl Iterator<Item = Frame> {
    let hand_over = |party| Frame::hand_over((HOST, LIST), (party, LIST));
    let open = |party| Frame::of(party, OPEN_WALK, LIST, KEPT_WALK);
    (1..PARTIES).map(hand_over).chain((0..PARTIES).map(open))
}

impl Count {
    fn add(&mut self, frames: &[Frame], answers: &[Answer]) {
        self.frames += frames.len();
        for (frame, answer) in frames.iter().zip(answers) {
            self.numbers[usize::from(answer.number)] += 1;
            self.done[usize::from(frame.operation)] += usize::from(answer.number == DONE);
        }
    }

    /// Every operation done, and the numbers that such frames can get.
    fn has_everything(&self) -> bool {
        let can_be = [SOURCE_EMPTY, ALREADY_LIVE, NOTHING_THERE, FULL, NO_NODES];
        let numbers = can_be.map(|number| self.numbers[usize::from(number)]);
        self.done.iter().chain(&numbers).all(|times| *times > 0)
    }

    fn print(&self) {
        let Count {
            lists,
            frames,
            steps,
            done,
            numbers,
        } = self;
        println!("lengths: {lists} lists, {frames} frames of eight parties agree, the last {steps} steps of walks open all the while");
        println!("lengths: done of each operation from 00 to 10: {done:?}");
        println!("lengths: numbers from 0 to 10: {numbers:?}");
    }
}
