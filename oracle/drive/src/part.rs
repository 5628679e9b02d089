//! A part of the tests that the original judges: one script, run on our code and on the original or held against its recorded answers.

use crate::ours::Ours;
use crate::subject::Subject;
use crate::transcript::{different_lines, Transcript};
use std::path::Path;
use std::{fs, io};

pub trait Part {
    const NAME: &'static str;
    /// What the columns of a row are.
    const COLUMNS: &'static str;

    /// Runs the script on subjects of the pools that it asks for, and hands each to `done`.
    fn run<S: Subject>(make: impl Fn(usize) -> S, done: impl FnMut(S), transcript: &mut Transcript);
}

fn header<P: Part>() -> String {
    format!(
        "Answers of src/vector/mod.rs of rpds 1.2.1, written by `cargo run --release --offline -p drive --features original -- record recorded`: {}; last, the FNV-1a checksum of all rows, of which some are written out",
        P::COLUMNS
    )
}

/// Prints what was compared and answers whether all of it agreed.
pub fn hold<P: Part>(recorded: Option<&Path>) -> io::Result<bool> {
    let (mut ours, mut audits, mut wrong) = (Transcript::default(), 0, Vec::new());
    let done = |mut subject: Ours| {
        // the last state is judged as well
        subject.batch(&[]);
        audits += subject.audits;
        wrong.extend(subject.flaws);
    };
    P::run(Ours::with_pool, done, &mut ours);
    let flaws = wrong.len();
    wrong.extend(differences::<P>(&ours, recorded)?);
    for what in wrong.iter().take(20) {
        println!("{}: {what}", P::NAME);
    }
    let (name, rows) = (P::NAME, ours.len());
    let differences = wrong.len() - flaws;
    println!("{name}: {rows} rows, {differences} differ from {}; {audits} states audited by both audits, {flaws} disagreements", judge_name(recorded));
    Ok(wrong.is_empty())
}

fn judge_name(recorded: Option<&Path>) -> &'static str {
    if cfg!(feature = "original") && recorded.is_none() {
        "the original's"
    } else {
        "the recorded ones"
    }
}

fn differences<P: Part>(ours: &Transcript, recorded: Option<&Path>) -> io::Result<Vec<String>> {
    #[cfg(feature = "original")]
    if recorded.is_none() {
        return Ok(ours.differences(&original::<P>()));
    }
    let directory = recorded.unwrap_or(Path::new("recorded"));
    let judge = fs::read_to_string(directory.join(format!("{}.txt", P::NAME)))?;
    let ours = ours.text(&header::<P>());
    Ok(different_lines(ours.lines(), judge.lines()))
}

#[cfg(feature = "original")]
fn original<P: Part>() -> Transcript {
    let mut transcript = Transcript::default();
    P::run(session::state::State::fresh, drop, &mut transcript);
    transcript
}

/// Writes the original's answers.
#[cfg(feature = "original")]
pub fn record<P: Part>(directory: &Path) -> io::Result<bool> {
    let text = original::<P>().text(&header::<P>());
    fs::create_dir_all(directory)?;
    fs::write(directory.join(format!("{}.txt", P::NAME)), &text)?;
    println!("{}: {} lines written", P::NAME, text.lines().count());
    Ok(true)
}

#[cfg(not(feature = "original"))]
pub fn record<P: Part>(_: &Path) -> io::Result<bool> {
    Err(io::Error::other(
        "recording needs the original: build with `--features original`",
    ))
}
