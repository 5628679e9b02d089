//! `session count`: how often each operation and each number occurs in an input, and how far its lists go.

use crate::lines;
use crate::places::Places;
use formulas::BITS;
use frames::numbers::*;
use original::vector::probe;
use std::fmt;

const NUMBERS: usize = NOT_A_FRAME as usize + 1;
/// Numbers that the program can't give: it has no batches, and 32,768 elements don't fit in its nodes.
const NEVER: [u8; 4] = [FULL, 11, 12, 13];

#[derive(Default)]
pub struct Count {
    asked: [usize; OPERATIONS],
    done: [usize; OPERATIONS],
    numbers: [usize; NUMBERS],
    longest: [usize; 1 + *BITS.end() as usize],
}

impl Count {
    pub fn of(input: &[u8]) -> Count {
        let mut count = Count::default();
        lines::run(input, |frame, answer, state| {
            count.numbers[usize::from(answer.number)] += 1;
            let Some(frame) = frame else {
                return;
            };
            let operation = usize::from(frame.operation);
            if operation >= OPERATIONS {
                return;
            }
            count.asked[operation] += 1;
            if answer.number != DONE {
                return;
            }
            count.done[operation] += 1;
            if let Some(filled) = Places::of(&frame).filled {
                let list = state.list(filled);
                let longest = &mut count.longest[usize::from(probe::bits(list))];
                *longest = list.len().max(*longest);
            }
        });
        count
    }

    /// Every operation asked and done, and every number that the program can give.
    pub fn has_everything(&self) -> bool {
        let numbers = (0..).zip(self.numbers);
        self.done.iter().all(|times| *times > 0)
            && numbers
                .filter(|(number, _)| !NEVER.contains(number))
                .all(|(_, times)| times > 0)
    }
}

impl fmt::Display for Count {
    fn fmt(&self, formatter: &mut fmt::Formatter<'_>) -> fmt::Result {
        for (operation, (asked, done)) in self.asked.iter().zip(&self.done).enumerate() {
            writeln!(formatter, "operation {operation:02X}: {asked}, done {done}")?;
        }
        for (number, times) in self.numbers.iter().enumerate() {
            writeln!(formatter, "number {number}: {times}")?;
        }
        for bits in BITS {
            let longest = self.longest[bits as usize];
            writeln!(formatter, "bits {bits}: longest list {longest}")?;
        }
        Ok(())
    }
}
