//! `boundary bench`: batches of frames beside the original's calls, im-rc's and flat arrays, by turns in one run; `boundary instructions`: the same counted by callgrind.

mod beside;
mod im_rc;
mod instructions;
mod ours;
mod plot;
mod row;
mod runner;
mod table;

use beside::{Flat, Original};
use im_rc::{ImRc, Library};
pub use instructions::{count, instructions};
use ours::Ours;
use row::{rows, Row};
pub use runner::Effort;
use runner::{by_turns, Repeated, Runner, Times, FULL};
use std::fs;
use std::path::Path;

#[derive(Clone, Copy, Debug, PartialEq, Eq)]
enum Side {
    Ours,
    Original,
    ImRc,
    Flat,
}

const SIDES: [Side; 4] = [Side::Ours, Side::Original, Side::ImRc, Side::Flat];

pub struct Measured {
    row: Row,
    ours: Times,
    original: Option<Times>,
    im_rc: Option<Times>,
    flat: Option<Times>,
}

impl Measured {
    fn ratio(&self) -> Option<f64> {
        let original = self.original?;
        Some(self.ours.median / original.median)
    }
}

#[derive(Clone, Copy)]
pub struct Choice<'a> {
    /// A part of the titles of the rows.
    pub row: &'a str,
    /// Where its library is.
    pub im_rc: Option<&'a str>,
    pub effort: Effort,
}

pub const EVERY_ROW: Choice = Choice {
    row: "",
    im_rc: None,
    effort: FULL,
};

impl Choice<'_> {
    /// Says so if there are none.
    fn rows(&self) -> Vec<Row> {
        let mut rows = rows();
        rows.retain(|row| row.title().contains(self.row));
        if rows.is_empty() {
            println!("no row is named so: {}", self.row);
        }
        rows
    }

    /// Says so if there is none where one is named.
    fn library(&self) -> Option<Library> {
        let path = self.im_rc?;
        let library = Library::load(path);
        if library.is_none() {
            println!("im-rc's library can't be loaded: {path}");
        }
        library
    }
}

/// Prints the table and writes the plot; answers whether all sums agree.
pub fn bench(plot: &Path, choice: Choice) -> bool {
    let (rows, library) = (choice.rows(), choice.library());
    let measured = rows.iter().map(|row| measure(*row, library, choice.effort));
    let Some(measured) = measured.collect::<Option<Vec<Measured>>>() else {
        return false;
    };
    print!("{}", table::table(&measured));
    if let Err(error) = fs::write(plot, plot::plot(&measured)) {
        println!("{}: {error}", plot.display());
        return false;
    }
    !measured.is_empty()
}

/// Nothing where the sums differ.
fn measure(row: Row, library: Option<Library>, effort: Effort) -> Option<Measured> {
    let mut runners = SIDES.map(|side| runner(row, side, library));
    let [ours, original, im_rc, flat] = by_turns(&mut runners, effort);
    let sums: Vec<u64> = runners.iter().flatten().map(|it| it.sum()).collect();
    if sums.iter().any(|sum| *sum != sums[0]) {
        println!("{}: sums differ, {sums:?}", row.title());
        return None;
    }
    Some(Measured {
        row,
        ours: ours?,
        original,
        im_rc,
        flat,
    })
}

/// Nothing where the side has no such row.
fn runner(row: Row, side: Side, library: Option<Library>) -> Option<Box<dyn Runner>> {
    match side {
        // its batches hold all passes
        Side::Ours => Some(Box::new(Ours::new(row))),
        Side::Original => by_passes(row, Original::new(row)),
        Side::ImRc => by_passes(row, ImRc::new(row, library)),
        Side::Flat => by_passes(row, Flat::new(row)),
    }
}

fn by_passes(row: Row, runner: Option<impl Runner + 'static>) -> Option<Box<dyn Runner>> {
    Some(Box::new(Repeated {
        runner: runner?,
        times: row.passes,
    }))
}
