//! `session program`: the program as a child process, held against the model byte for byte.

use crate::child::{self, Way};
use crate::edges::edges;
use crate::pieces::{Cut, WAYS};
use crate::{lines, make, manners};
use frames::rng::Rng;
use std::io;
use std::ops::Range;
use std::path::Path;

/// None of them is recorded.
pub const SEEDS: Range<u64> = 101..113;
pub const LINES: usize = 3_000;
/// Longer inputs are not fed byte by byte.
const SHORT: usize = 250_000;
/// As much of a line is printed.
const SHOWN: usize = 120;

/// Whether all agrees; each part prints a line.
pub fn hold(path: &Path, seeds: Range<u64>, count: usize) -> io::Result<bool> {
    let mut agrees = true;
    for seed in seeds {
        let name = format!("seed {seed}");
        let agrees_here = agrees_on(path, &name, seed, &make::make(seed, count))?;
        if !agrees_here {
            println!("{name} again: --seeds {seed}..{} --lines {count}", seed + 1);
        }
        agrees &= agrees_here;
    }
    for (name, input) in edges() {
        agrees &= agrees_on(path, name, 0, &input)?;
    }
    agrees &= manners::answers_at_once(path)?;
    agrees &= manners::output_closed(path)?;
    Ok(agrees)
}

/// One input, fed in every way; the seed decides the pieces.
fn agrees_on(path: &Path, name: &str, seed: u64, input: &[u8]) -> io::Result<bool> {
    let expected = lines::answers(input).into_bytes();
    let count = lines::lines(input).count();
    let mut rng = Rng::new(seed);
    let is_fed = |(cut, _): &(Cut, Way)| *cut != Cut::Bytes || input.len() <= SHORT;
    let mut ways = 0;
    for (cut, way) in WAYS.into_iter().filter(is_fed) {
        let pieces = cut.pieces(&mut rng, way, input);
        let fed = format!("{name}, {count} lines, pieces {cut:?} by {way:?}");
        let ran = child::run(path, &pieces, way);
        let ran = ran.map_err(|error| io::Error::other(format!("{fed}: {error}")))?;
        let failed = (!ran.status.success()).then(|| ran.status.to_string());
        let wrong = difference(input, &ran.output, &expected).or(failed);
        if let Some(wrong) = wrong {
            println!("{fed}: {wrong}");
            return Ok(false);
        }
        ways += 1;
    }
    println!("{name}: {count} lines, fed in {ways} ways, answered as by the model, byte for byte");
    Ok(true)
}

/// The first line whose answers differ, and both.
fn difference(input: &[u8], output: &[u8], expected: &[u8]) -> Option<String> {
    if output == expected {
        return None;
    }
    let pairs = lines::lines(output).zip(lines::lines(expected));
    let at = pairs.take_while(|(ours, models)| ours == models).count();
    let [line, ours, models] = [input, output, expected].map(|text| shown(text, at));
    let number = at + 1;
    Some(format!(
        "line {number}: {line}: the program answers {ours}, the model {models}"
    ))
}

fn shown(text: &[u8], at: usize) -> String {
    let Some(line) = lines::lines(text).nth(at) else {
        return String::from("nothing");
    };
    let cut = line[..line.len().min(SHOWN)].escape_ascii();
    match line.len() {
        0..=SHOWN => format!("\"{cut}\""),
        length => format!("\"{cut}\".. of {length} bytes"),
    }
}

#[cfg(test)]
mod tests {
    use super::*;

    #[test]
    fn the_first_difference_is_told() {
        let told = |output: &[u8]| difference(b"A\n\xFF\nC", output, b"1\n2\n3\n");
        assert_eq!(told(b"1\n2\n3\n"), None);
        let tells = |output, end: &str| {
            let told = told(output).expect("they differ");
            assert!(told.ends_with(end), "{told}");
        };
        tells(
            b"1\n0\n3\n",
            r#"line 2: "\xff\n": the program answers "0\n", the model "2\n""#,
        );
        tells(
            b"1\n2\n",
            r#"line 3: "C": the program answers nothing, the model "3\n""#,
        );
        tells(
            b"1\n2\n3",
            r#"line 3: "C": the program answers "3", the model "3\n""#,
        );
        tells(
            b"1\n2\n3\n4\n",
            r#"line 4: nothing: the program answers "4\n", the model nothing"#,
        );
    }
}
