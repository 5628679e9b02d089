//! What stands beside ours: the original's vectors, and flat arrays.

use super::row::{Row, Work};
use super::runner::{sum_in_order, Runner};
use frames::grown::element;
use original::Vector;
use std::cmp::Ordering;
use std::hint::black_box;

pub struct Original {
    row: Row,
    picks: Vec<(u32, u32)>,
    lists: Vec<Vector<u32>>,
    read: u64,
}

impl Original {
    /// Nothing where the original has no such call.
    pub fn new(row: Row) -> Option<Original> {
        let made = Original {
            row,
            picks: row.picks(),
            lists: lists(row),
            read: 0,
        };
        (!row.is_by_call()).then_some(made)
    }

    /// The source is held during each edit and let go after it.
    fn edit(&mut self, edit: impl Fn(&Vector<u32>, u32, u32) -> Option<Vector<u32>>) -> u64 {
        let list = &mut self.lists[0];
        for &(index, value) in &self.picks {
            *list = edit(list, index, value).expect("every edit is done");
        }
        0
    }
}

fn lists(row: Row) -> Vec<Vector<u32>> {
    let count = if row.work == Work::Compare { 2 } else { 1 };
    let length = if row.work == Work::Push {
        0
    } else {
        row.length()
    };
    (0..count).map(|_| grown(row.bits, length)).collect()
}

/// Grown as ours is, by pushes whose source is let go after each.
fn grown(bits: u32, length: u32) -> Vector<u32> {
    let empty = Vector::new_with_bits(bits as u8);
    (0..length).fold(empty, |list, index| list.push_back(element(index)))
}

impl Runner for Original {
    fn prepare(&mut self) {
        if self.row.edits() {
            self.lists = lists(self.row);
        }
    }

    fn run(&mut self) {
        let length = self.row.length() as usize;
        let get = |index: usize| self.lists[0].get(index).copied().map_or(0, u64::from);
        self.read = match self.row.work {
            Work::Forward => total(self.lists[0].iter()),
            Work::Backward => total(self.lists[0].iter().rev()),
            Work::GetsInOrder => (0..length).map(get).sum(),
            Work::GetsAtRandom => self.picks.iter().map(|pick| get(pick.0 as usize)).sum(),
            Work::Push => self.edit(|list, _, value| Some(list.push_back(value))),
            Work::Set => self.edit(|list, index, value| list.set(index as usize, value)),
            Work::Drop => self.edit(|list, _, _| list.drop_last()),
            Work::Compare => compares(self.row, &self.lists),
            Work::Release => {
                self.lists.clear();
                0
            }
            Work::Form | Work::Audit => 0,
        };
    }

    fn sum(&self) -> u64 {
        let lists = self.lists.iter();
        lists.fold(self.read, |sum, list| {
            sum_in_order(sum, list.iter().copied())
        })
    }
}

fn total<'a>(elements: impl Iterator<Item = &'a u32>) -> u64 {
    elements.copied().map(u64::from).sum()
}

/// Answers added up, each as a frame has it.
fn compares<T: Ord>(row: Row, lists: &[T]) -> u64 {
    let compare = |_| match black_box(&lists[0]).cmp(black_box(&lists[1])) {
        Ordering::Less => u64::from(u32::MAX),
        Ordering::Equal => 0,
        Ordering::Greater => 1,
    };
    (0..row.compares()).map(compare).sum()
}

pub struct Flat {
    row: Row,
    picks: Vec<(u32, u32)>,
    lists: [Vec<u32>; 2],
    read: u64,
}

impl Flat {
    /// Nothing for edits: a copy of the whole array is no counterpart.
    pub fn new(row: Row) -> Option<Flat> {
        let list: Vec<u32> = (0..row.length()).map(element).collect();
        let made = Flat {
            row,
            picks: row.picks(),
            lists: [list.clone(), list],
            read: 0,
        };
        (!row.is_by_call() && !row.edits()).then_some(made)
    }
}

impl Runner for Flat {
    fn prepare(&mut self) {}

    fn run(&mut self) {
        let list = black_box(&self.lists[0]);
        let get = |index: usize| u64::from(list[index]);
        self.read = match self.row.work {
            Work::Backward => (0..list.len()).rev().map(get).sum(),
            Work::GetsAtRandom => self.picks.iter().map(|pick| get(pick.0 as usize)).sum(),
            Work::Compare => compares(self.row, &self.lists),
            _ => (0..list.len()).map(get).sum(),
        };
    }

    fn sum(&self) -> u64 {
        let count = if self.row.work == Work::Compare { 2 } else { 1 };
        let lists = self.lists[..count].iter();
        lists.fold(self.read, |sum, list| {
            sum_in_order(sum, list.iter().copied())
        })
    }
}
