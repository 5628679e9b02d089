//! How the program answers while its input stays open, and ends when nobody reads its answers.

use crate::child;
use crate::{lines, make};
use std::io::{self, Read, Write};
use std::os::unix::process::ExitStatusExt;
use std::path::Path;
use std::process::{Child, Command, ExitStatus, Stdio};
use std::sync::mpsc::{self, Receiver};
use std::thread;
use std::time::Duration;

/// Each line of the output.
const ANSWER: usize = 13;
const SEED: u64 = 90;
const LINES: usize = 40;
const AT_ONCE: Duration = Duration::from_secs(5);
/// How long an answer to a line not yet ended is waited for, on the first few lines.
const TOO_EARLY: Duration = Duration::from_millis(50);
const FEW: usize = 4;
const SIGPIPE: i32 = 13;

fn spawn(mut command: Command) -> io::Result<Child> {
    command.stdin(Stdio::piped()).stdout(Stdio::piped()).spawn()
}

/// Each line is answered before the next is written, and none before its line feed.
pub fn answers_at_once(path: &Path) -> io::Result<bool> {
    let input = make::make(SEED, LINES);
    let mut child = spawn(Command::new(path))?;
    let answers = answers_of(&mut child);
    let wrong = first_not_at_once(&mut child, &input, &answers)?;
    drop(child.stdin.take());
    let status = child::end(&mut child)?;
    match &wrong {
        Some(wrong) => println!("input kept open: seed {SEED}, {wrong}"),
        None => println!("input kept open: {LINES} lines, each answered before the next, {status}"),
    }
    Ok(wrong.is_none() && status.success())
}

/// What the program writes, an answer's length at a time.
fn answers_of(child: &mut Child) -> Receiver<[u8; ANSWER]> {
    let mut stdout = child.stdout.take().expect("its output is a pipe");
    let (sender, receiver) = mpsc::channel();
    thread::spawn(move || {
        let mut answer = [0; ANSWER];
        while stdout.read_exact(&mut answer).is_ok() && sender.send(answer).is_ok() {}
    });
    receiver
}

fn first_not_at_once(
    child: &mut Child,
    input: &[u8],
    answers: &Receiver<[u8; ANSWER]>,
) -> io::Result<Option<String>> {
    let stdin = child.stdin.as_mut().expect("its input is a pipe");
    let expected = lines::answers(input);
    let expected = expected.as_bytes().chunks(ANSWER);
    for (number, (line, expected)) in (1..).zip(lines::lines(input).zip(expected)) {
        let told = format!("line {number}: {}", line.escape_ascii());
        let (body, line_feed) = line.split_at(line.len() - 1);
        stdin.write_all(body)?;
        if number <= FEW && answers.recv_timeout(TOO_EARLY).is_ok() {
            return Ok(Some(format!("{told}: answered before its line feed")));
        }
        stdin.write_all(line_feed)?;
        match answers.recv_timeout(AT_ONCE) {
            Err(_) => return Ok(Some(format!("{told}: no answer within {AT_ONCE:?}"))),
            Ok(answer) if answer != expected => {
                let (answer, expected) = (answer.escape_ascii(), expected.escape_ascii());
                let told = format!("{told}: the program answers {answer}, the model {expected}");
                return Ok(Some(told));
            }
            Ok(_) => {}
        }
    }
    Ok(None)
}

/// Its output is closed while most of it is still to be written. SIGPIPE then ends it; where that signal is ignored, it ends by itself with exit code 0.
pub fn output_closed(path: &Path) -> io::Result<bool> {
    let mut ignoring = Command::new("sh");
    ignoring.args(["-c", "trap '' PIPE; exec \"$0\""]).arg(path);
    let by_signal = closed_early("output closed", Command::new(path))?;
    let by_itself = closed_early("output closed, SIGPIPE ignored", ignoring)?;
    Ok(by_signal && by_itself)
}

fn closed_early(name: &str, command: Command) -> io::Result<bool> {
    let mut child = spawn(command)?;
    let mut stdin = child.stdin.take().expect("its input is a pipe");
    let mut stdout = child.stdout.take().expect("its output is a pipe");
    // the rest is refused once the program ended
    let writer = thread::spawn(move || drop(stdin.write_all(&b"\n".repeat(1_000_000))));
    stdout.read_exact(&mut [0; ANSWER])?;
    drop(stdout);
    let status = child::end(&mut child)?;
    writer.join().expect("the writer does not panic");
    let well = ended_well(status);
    let told = if well { "" } else { ", neither 0 nor SIGPIPE" };
    println!("{name}: {status}{told}");
    Ok(well)
}

fn ended_well(status: ExitStatus) -> bool {
    status.success() || status.signal() == Some(SIGPIPE)
}
