//! `boundary exhaust`: each call at each number of free nodes from 0 to its charge, in a pool that other versions fill.

use crate::calls::{calls, Call};
use crate::pair::{Disagreement, Pair};
use crate::scenes::{frame, Scene, ALL_BESIDE};
use formulas::{degree, BITS};
use frames::numbers::*;
use frames::{Answer, Frame};
use lent::Lent;
use session::state::State;

/// Above every charge and every need of a scene.
const SPARE: usize = 16;
const LONGEST: u32 = 1_026;
/// All lengths up to it are tried.
const SHORT: u32 = 40;
const LARGE_POOL: usize = 65_536;
/// The first of the parties whose versions of one node fill the pool.
const FIRST_FILLER: u8 = 4;

#[derive(Default)]
struct Tried {
    scenes: usize,
    calls: usize,
    no_nodes: usize,
    otherwise_refused: usize,
    operations: [usize; OPERATIONS],
}

pub fn exhaust() -> bool {
    let mut tried = Tried::default();
    for bits in BITS {
        for length in lengths(bits) {
            for beside in ALL_BESIDE {
                let scene = Scene {
                    bits,
                    length,
                    beside,
                };
                if let Err(disagreement) = Stage::try_all(&scene, &mut tried) {
                    println!("exhaust: {scene:?}: {}", disagreement.told);
                    return false;
                }
            }
        }
    }
    let Tried {
        scenes,
        calls,
        no_nodes,
        otherwise_refused,
        operations,
    } = tried;
    println!("exhaust: {scenes} states, {calls} calls, {no_nodes} answered 10 with nothing changed, {otherwise_refused} refused otherwise");
    println!("exhaust: calls of each operation from 00 to 10: {operations:?}");
    operations.iter().all(|calls| *calls > 0)
}

/// Short ones, and those around powers of the degree.
fn lengths(bits: u32) -> Vec<u32> {
    let near = |length: &u32| {
        let mut powers = (1..=10).map(|k| degree(bits).pow(k).min(1 << 16));
        *length <= SHORT || powers.any(|power| power.abs_diff(*length) <= 2)
    };
    (0..=LONGEST).filter(near).collect()
}

/// A scene in a pool with some nodes free, and what it was before a call.
struct Stage {
    frames: Vec<Frame>,
    pair: Pair,
    before: Lent,
}

impl Stage {
    fn try_all(scene: &Scene, tried: &mut Tried) -> Result<(), Disagreement> {
        let frames = scene.frames();
        let nodes = nodes_of(&frames) + SPARE;
        let mut pair = Pair::fresh(nodes);
        pair.serve(&frames)?;
        let mut stage = Stage {
            frames,
            before: pair.lent.clone(),
            pair,
        };
        tried.scenes += 1;
        let calls = calls(scene);
        for free in (0..SPARE).rev() {
            stage.fill_one(SPARE - free)?;
            for call in &calls {
                if free <= call.charge.max(1) as usize {
                    stage.attempt(call, free, tried)?;
                }
            }
        }
        Ok(())
    }

    fn fill_one(&mut self, number: usize) -> Result<(), Disagreement> {
        let filler = filler(number);
        self.frames.push(filler);
        self.pair.serve(&[filler])?;
        self.before.clone_from(&self.pair.lent);
        Ok(())
    }

    fn attempt(&mut self, call: &Call, free: usize, tried: &mut Tried) -> Result<(), Disagreement> {
        let wrong = |what: &str| {
            let line = call.frame.line();
            let told = format!("{} with {free} free nodes: {what}", line.trim_end());
            Err(Disagreement::of_batch(told))
        };
        if self.before.free_nodes() != free {
            return wrong("the pool is not filled so");
        }
        let answer = match self.pair.serve(&[call.frame]) {
            Ok(answers) => answers[0],
            Err(disagreement) => return wrong(&disagreement.told),
        };
        tried.count(&call.frame, &answer);
        if (answer.number == NO_NODES) != (free < call.charge as usize) {
            return wrong("10 is not answered exactly below the charge");
        }
        if answer.number != DONE && self.pair.lent != self.before {
            return wrong("a refused call changed the state");
        }
        if let Err(disagreement) = self.held_after(&call.frame, &answer, free) {
            return wrong(&disagreement.told);
        }
        self.restore(&call.frame, &answer);
        Ok(())
    }

    fn held_after(
        &mut self,
        frame: &Frame,
        answer: &Answer,
        free: usize,
    ) -> Result<(), Disagreement> {
        if answer.number != DONE {
            return Ok(());
        }
        let gives_back = matches!(frame.operation, RELEASE | CLOSE_WALK);
        let after = self.pair.lent.free_nodes();
        if !gives_back && after + usize::from(answer.fresh) != free {
            let told = format!(
                "{after} nodes are free after it, and fresh is {}",
                answer.fresh
            );
            return Err(Disagreement::of_batch(told));
        }
        self.pair.hold_contents()?;
        // an empty batch audits the state
        self.pair.serve(&[]).map(drop)
    }

    /// Both sides as before the call.
    fn restore(&mut self, frame: &Frame, answer: &Answer) {
        if answer.number != DONE {
            return;
        }
        self.pair.lent.clone_from(&self.before);
        let Frame {
            party, destination, ..
        } = *frame;
        let emptied = match frame.operation {
            NEW | CLONE | SET | PUSH_BACK | DROP_LAST => (party, RELEASE),
            HAND_OVER => (frame.value as u8, RELEASE),
            OPEN_WALK => (party, CLOSE_WALK),
            RELEASE | CLOSE_WALK | NEXT | NEXT_BACK => return self.rebuild_model(),
            _ => return,
        };
        let (party, operation) = emptied;
        self.pair.model.serve(&Frame {
            party,
            ..self::frame(operation, destination, 0)
        });
    }

    fn rebuild_model(&mut self) {
        let nodes = self.before.kinds.len();
        // the model counts all lists that are live
        self.pair.model.clear();
        self.pair.model = State::fresh(nodes);
        for frame in &self.frames {
            self.pair.model.serve(frame);
        }
    }
}

impl Tried {
    fn count(&mut self, frame: &Frame, answer: &Answer) {
        self.calls += 1;
        self.operations[usize::from(frame.operation)] += 1;
        match answer.number {
            DONE => {}
            NO_NODES => self.no_nodes += 1,
            _ => self.otherwise_refused += 1,
        }
    }
}

/// Nodes in use after the frames.
fn nodes_of(frames: &[Frame]) -> usize {
    let mut state = State::fresh(LARGE_POOL);
    for frame in frames {
        state.serve(frame);
    }
    LARGE_POOL - state.free_nodes()
}

fn filler(number: usize) -> Frame {
    let number = number as u8;
    Frame {
        party: FIRST_FILLER + number / SLOTS,
        index: 1 + u32::from(number % 5),
        ..frame(NEW, 0, number % SLOTS)
    }
}
