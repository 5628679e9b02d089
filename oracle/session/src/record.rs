//! `session record` and `session recorded`: made sessions and the answers to them, kept as files.

use crate::count::Count;
use crate::{lines, make};
use std::ops::RangeInclusive;
use std::path::Path;
use std::{fs, io};

const SEEDS: RangeInclusive<u64> = 1..=3;
const LINES: usize = 12_000;

/// Names and contents.
fn files() -> Vec<(String, Vec<u8>)> {
    let pair = |seed| {
        let input = make::make(seed, LINES);
        let answers = lines::answers(&input).into_bytes();
        [
            (format!("session-{seed}.lines"), input),
            (format!("session-{seed}.answers"), answers),
        ]
    };
    SEEDS.flat_map(pair).collect()
}

pub fn write(directory: &Path) -> io::Result<bool> {
    fs::create_dir_all(directory)?;
    for (name, contents) in files() {
        fs::write(directory.join(&name), &contents)?;
        let lines = lines::lines(&contents).count();
        println!("{name}: {lines} lines written");
    }
    Ok(true)
}

/// Says whether the files are, byte for byte, what would be written now, and hold every operation and number.
pub fn compare(directory: &Path) -> io::Result<bool> {
    let mut agrees = true;
    for (name, contents) in files() {
        let recorded = fs::read(directory.join(&name))?;
        let wrong = if recorded != contents {
            let pairs = lines::lines(&recorded).zip(lines::lines(&contents));
            let line = 1 + pairs.take_while(|(old, new)| old == new).count();
            Some(format!("differs from what is made now at line {line}"))
        } else if name.ends_with(".lines") && !Count::of(&contents).has_everything() {
            Some(String::from("lacks an operation or a number"))
        } else {
            None
        };
        agrees &= wrong.is_none();
        let lines = lines::lines(&contents).count();
        let told = wrong.unwrap_or(format!("{lines} lines are as made now, byte for byte"));
        println!("{name}: {told}");
    }
    Ok(agrees)
}
