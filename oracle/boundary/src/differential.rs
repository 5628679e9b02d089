//! `boundary differential`: random sessions in batches, answered byte for byte as the model does.

use crate::author::Author;
use crate::pair::{Disagreement, Pair};
use frames::numbers::*;
use frames::rng::Rng;
use frames::{Answer, Frame, ANSWER_SIZE, FRAME_SIZE};
use lent::ffi::{self, Report};
use lent::SLICES;

const LARGEST_BATCH: usize = 200;
const NUMBERS: usize = NO_NODES as usize + 1;
/// A run that is shorter has no lists of the greatest length.
const FRAMES_WITH_FULL_LISTS: usize = 1_000_000;

#[derive(Clone, Copy)]
enum Lists {
    UpTo(u32),
    /// Two of the greatest length, with their bits.
    Full(u32),
}

/// A session's nodes, its frames, the lists it grows, and one in how many batches has its contents read.
struct Size {
    nodes: usize,
    frames: usize,
    lists: Lists,
    read_one_in: usize,
}

#[derive(Default)]
struct Count {
    sessions: usize,
    batches: usize,
    refused_batches: usize,
    frames: usize,
    read: usize,
    done: [usize; OPERATIONS],
    numbers: [usize; NUMBERS],
    fullest: usize,
}

pub fn differential(frames: usize, seed: u64) -> bool {
    println!("differential: seed {seed}, {frames} frames");
    let mut rng = Rng::new(seed);
    let mut count = Count::default();
    while count.frames < frames {
        let size = match count.sessions {
            0 if frames >= FRAMES_WITH_FULL_LISTS => full_lists_size(5),
            1 if frames >= FRAMES_WITH_FULL_LISTS => full_lists_size(1),
            turn => any_size(&mut rng, turn),
        };
        let session_seed = rng.word().into();
        let mut session = Session::new(&size, session_seed);
        let left = frames - count.frames;
        if let Err(disagreement) = session.run(&size, left.min(size.frames), &mut count) {
            session.tell(&disagreement, seed, frames);
            return false;
        }
        count.sessions += 1;
    }
    count.print();
    let everything = frames < FRAMES_WITH_FULL_LISTS || count.has_everything();
    if !everything {
        println!("differential: an operation is never done, or a number never answered");
    }
    everything
}

/// Small ones that fill up, middle ones and the largest take turns.
fn any_size(rng: &mut Rng, turn: usize) -> Size {
    let (nodes, frames, longest, read_one_in) = match turn % 12 {
        0 => (65_536, 12_000, 3_000, 40),
        1 | 2 => (4_096, 12_000, 2_500, 20),
        3 | 4 => (256 + rng.below(300), 6_000, 400, 4),
        5 | 6 => (64 + rng.below(64), 4_000, 100, 2),
        7 => (1 + rng.below(8), 800, 12, 1),
        _ => (1 + rng.below(48), 2_000, 40, 1),
    };
    Size {
        nodes,
        frames,
        lists: Lists::UpTo(longest),
        read_one_in,
    }
}

/// Two lists of bits 1 take the whole pool.
fn full_lists_size(bits: u32) -> Size {
    Size {
        nodes: 65_536,
        frames: 170_000,
        lists: Lists::Full(bits),
        read_one_in: 80,
    }
}

struct Session {
    pair: Pair,
    author: Author,
    nodes: usize,
    batch: usize,
}

impl Session {
    fn new(size: &Size, seed: u64) -> Session {
        let author = match size.lists {
            Lists::UpTo(longest) => Author::new(seed, longest),
            Lists::Full(bits) => Author::of_full_lists(seed, bits, &[2, 5]),
        };
        Session {
            pair: Pair::fresh(size.nodes),
            author,
            nodes: size.nodes,
            batch: 0,
        }
    }

    fn run(&mut self, size: &Size, frames: usize, count: &mut Count) -> Result<(), Disagreement> {
        let mut left = frames;
        while left > 0 {
            let rng = &mut self.author.rng;
            let asked = match rng.below(5) {
                0 => rng.below(4),
                _ => rng.below(LARGEST_BATCH + 1),
            };
            let asked = asked.min(left);
            left -= asked;
            self.run_batch(asked, count)?;
            if self.author.rng.one_in(size.read_one_in) {
                self.pair.hold_contents()?;
                count.read += 1;
            }
            if self.author.rng.one_in(40) {
                self.refused_batch()?;
                count.refused_batches += 1;
            }
            self.batch += 1;
        }
        self.pair.hold_contents()
    }

    fn run_batch(&mut self, asked: usize, count: &mut Count) -> Result<(), Disagreement> {
        let mut frames = Vec::with_capacity(asked);
        let mut answers = Vec::with_capacity(asked);
        for _ in 0..asked {
            let frame = self.author.frame(&self.pair.model);
            let answer = self.pair.model.serve(&frame);
            count.frame(&frame, &answer);
            frames.push(frame);
            answers.push(answer);
        }
        count.batches += 1;
        let in_use = self.nodes - self.pair.model.free_nodes();
        count.fullest = count.fullest.max(in_use);
        let beyond = self.author.rng.below(3 * ANSWER_SIZE);
        self.pair.batch(&frames, &answers, beyond)
    }

    /// A batch with a piece of a frame, too little room, or a slice of another size: nothing is written, nor by forming such slices.
    fn refused_batch(&mut self) -> Result<(), Disagreement> {
        let rng = &mut self.author.rng;
        let mut lent = self.pair.lent.clone();
        let frames = 1 + rng.below(9);
        let mut requests: Vec<u8> = (0..FRAME_SIZE * frames).map(|_| rng.byte()).collect();
        let mut room = vec![rng.byte(); ANSWER_SIZE * frames];
        let wrong = 1 + rng.below(7);
        let (ragged, no_room, ill_sized) = (wrong & 1 == 1, wrong & 2 == 2, wrong & 4 == 4);
        if no_room {
            room.truncate(rng.below(room.len()));
        }
        if ragged {
            requests.truncate(requests.len() - 1 - rng.below(FRAME_SIZE - 1));
        }
        if ill_sized {
            lent.shorten(rng.below(SLICES));
        }
        let number = match (ragged, no_room) {
            (true, _) => RAGGED,
            (_, true) => NO_ROOM,
            _ => ILL_FORMED,
        };
        let (before, room_before) = (lent.clone(), room.clone());
        let report = ffi::batch(&mut lent, &requests, &mut room);
        let refused = |number: u8| Report {
            number: number.into(),
            frames: 0,
        };
        let forms_too = ill_sized && ffi::form(&mut lent) != refused(ILL_FORMED);
        if report != refused(number) || lent != before || room != room_before || forms_too {
            let told = format!("to be refused with {number}: {report:?}, or it wrote, or formed");
            return Err(Disagreement::of_batch(told));
        }
        Ok(())
    }

    fn tell(&self, disagreement: &Disagreement, seed: u64, frames: usize) {
        let Disagreement { frame, told } = disagreement;
        let frame = frame.map_or(String::new(), |frame| format!(", frame {frame}"));
        let (nodes, batch) = (self.nodes, self.batch);
        println!("differential: {nodes} nodes, batch {batch}{frame}: {told}");
        println!("differential: again by boundary differential --frames {frames} --seed {seed}");
    }
}

impl Count {
    fn frame(&mut self, frame: &Frame, answer: &Answer) {
        self.frames += 1;
        self.numbers[usize::from(answer.number)] += 1;
        if answer.number == DONE {
            self.done[usize::from(frame.operation)] += 1;
        }
    }

    /// Every operation done, and every number that a frame can get.
    fn has_everything(&self) -> bool {
        self.done
            .iter()
            .chain(&self.numbers)
            .all(|times| *times > 0)
    }

    fn print(&self) {
        let Count {
            sessions,
            batches,
            refused_batches,
            frames,
            read,
            done,
            numbers,
            fullest,
        } = self;
        println!("differential: {frames} frames in {batches} batches of {sessions} sessions agree, contents read {read} times, {refused_batches} batches refused whole, up to {fullest} nodes in use");
        println!("differential: done of each operation from 00 to 10: {done:?}");
        println!("differential: numbers from 0 to 10: {numbers:?}");
    }
}
