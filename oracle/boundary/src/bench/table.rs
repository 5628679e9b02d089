//! The table, in Markdown.

use super::row::{Row, Work};
use super::runner::Times;
use super::Measured;
use std::fmt::Write;

const NANO: f64 = 1e9;
const MICRO: f64 = 1e6;

pub fn table(measured: &[Measured]) -> String {
    let mut text = String::from(
        "| what | bits | frames a batch | repetitions | ours | the original | im-rc | a flat array | ours / original |\n\
         |---|---|---|---|---|---|---|---|---|\n",
    );
    for line in measured {
        let row = line.row;
        let cell = |times: Option<Times>| times.map_or(String::new(), |times| figures(row, times));
        let batch = match row.work {
            Work::Form => String::new(),
            _ => grouped(row.frames().len() as f64),
        };
        let cells = [
            row.label(),
            bits(row),
            batch,
            grouped(line.ours.count as f64),
            figures(row, line.ours),
            cell(line.original),
            cell(line.im_rc),
            cell(line.flat),
            line.ratio().map_or(String::new(), figure),
        ];
        writeln!(text, "| {} |", cells.join(" | ")).expect("a string can be written");
    }
    text
}

/// Instructions of one run.
pub struct Counted {
    pub row: Row,
    pub ours: f64,
    pub audit: Option<f64>,
    pub original: Option<f64>,
    pub im_rc: Option<f64>,
    pub flat: Option<f64>,
}

pub fn instructions_table(counted: &[Counted]) -> String {
    let mut text = String::from(
        "| what | bits | ours | of it the audit | the original | im-rc | a flat array | ours / original |\n\
         |---|---|---|---|---|---|---|---|\n",
    );
    for line in counted {
        let row = line.row;
        let each = |run: f64| figure(run / f64::from(row.count()));
        let cell = |run: Option<f64>| run.map_or(String::new(), each);
        let ratio = line.original.map(|original| line.ours / original);
        let cells = [
            row.label(),
            bits(row),
            each(line.ours),
            cell(line.audit),
            cell(line.original),
            cell(line.im_rc),
            cell(line.flat),
            ratio.map_or(String::new(), figure),
        ];
        writeln!(text, "| {} |", cells.join(" | ")).expect("a string can be written");
    }
    text
}

/// Forming knows none.
fn bits(row: Row) -> String {
    match row.work {
        Work::Form => String::new(),
        _ => row.bits.to_string(),
    }
}

fn figures(row: Row, times: Times) -> String {
    let (scale, unit) = if row.is_by_call() {
        (MICRO, " µs")
    } else {
        (NANO, "")
    };
    let [median, least, most] = [times.median, times.least, times.most]
        .map(|seconds| figure(scale * seconds / f64::from(row.count())));
    format!("{median}{unit} ({least} to {most})")
}

/// Three digits or so.
pub fn figure(number: f64) -> String {
    match number {
        ..10.0 => format!("{number:.2}"),
        ..100.0 => format!("{number:.1}"),
        _ => grouped(number),
    }
}

/// Whole, with commas between thousands.
fn grouped(number: f64) -> String {
    let digits = format!("{number:.0}");
    let mut text = String::new();
    for (place, digit) in digits.chars().enumerate() {
        if place > 0 && (digits.len() - place) % 3 == 0 {
            text.push(',');
        }
        text.push(digit);
    }
    text
}
