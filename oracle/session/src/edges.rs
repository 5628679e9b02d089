//! Inputs at the edges of what a line is.

use frames::grown::grown;
use frames::Frame;

/// By party 1, done if its slot 0 is empty; bits 5.
const NEW_LIST: &[u8] = b"010000000000000500000000";
/// Tells whether a line before it was taken for a frame.
const FREE: &[u8] = b"000D00000000000000000000";
const DIGITS: &[u8] = b"0123456789ABCDEF";
const MANY: usize = 100_000;
const LONG: usize = 3_000_000;

/// Names and inputs.
pub fn edges() -> Vec<(&'static str, Vec<u8>)> {
    vec![
        ("empty input", Vec::new()),
        ("a line feed", b"\n".to_vec()),
        ("two line feeds", b"\n\n".to_vec()),
        ("100,000 line feeds", b"\n".repeat(MANY)),
        ("a frame with no line feed", FREE.to_vec()),
        (
            "a frame, then one with no line feed",
            [FREE, b"\n", FREE].concat(),
        ),
        ("a frame, then one byte", [FREE, b"\n0"].concat()),
        ("one digit", b"0".to_vec()),
        ("one NUL", b"\0".to_vec()),
        ("one byte FF", b"\xFF".to_vec()),
        ("carriage returns", carriage_returns()),
        ("every byte in place of a digit", every_byte()),
        ("lines of one byte again and again", lines_of_one_byte()),
        ("every digit at every place", every_digit()),
        ("lower case", lower_case()),
        (
            "lines of 0 to 60 digits and of some more",
            lines_of_digits(),
        ),
        ("a long line, then a frame", long_line(true)),
        ("a long line with no line feed", long_line(false)),
        (
            "line feeds at every place of a read",
            every_place_of_a_read(),
        ),
    ]
}

fn carriage_returns() -> Vec<u8> {
    let lines: [&[u8]; 7] = [
        &[NEW_LIST, b"\r\n"].concat(),
        &[b"\r", NEW_LIST, b"\n"].concat(),
        &[NEW_LIST, b"\r", FREE, b"\n"].concat(),
        &[&NEW_LIST[1..], b"\r\n"].concat(),
        b"\r\n",
        b"\r\r\n",
        &[FREE, b"\n"].concat(),
    ];
    lines.concat()
}

/// A line feed makes two short lines.
fn every_byte() -> Vec<u8> {
    let lines = (0..=u8::MAX).flat_map(|byte| {
        [0, 1, 11, 22, 23].map(|place| {
            let mut line = NEW_LIST.to_vec();
            line[place] = byte;
            [&line, &b"\n"[..], FREE, b"\n"].concat()
        })
    });
    lines.flatten().collect()
}

fn lines_of_one_byte() -> Vec<u8> {
    let lines = (0..=u8::MAX).flat_map(|byte| {
        let lengths = [1, 2, 12, 23, 24, 25, 48];
        lengths.map(|length| [&[byte].repeat(length)[..], b"\n", FREE, b"\n"].concat())
    });
    lines.flatten().collect()
}

fn every_digit() -> Vec<u8> {
    let lines = (0..FREE.len()).flat_map(|place| {
        DIGITS.iter().map(move |digit| {
            let mut line = b"000000000000000000000000\n".to_vec();
            line[place] = *digit;
            line
        })
    });
    lines.flatten().collect()
}

fn lower_case() -> Vec<u8> {
    let lower = FREE.to_ascii_lowercase();
    let mixed = b"010600000000000aABCDEFAB";
    let lines: [&[u8]; 4] = [&lower, mixed, b"01060000abcdef0000000000", FREE];
    lines.map(|line| [line, b"\n"].concat()).concat()
}

/// Also those whose length is right but for a multiple of 256 and the like.
fn lines_of_digits() -> Vec<u8> {
    let frame = NEW_LIST.len();
    let more = [256, 512, 4_096, 65_536, 65_560, 131_072].map(|more| more + frame);
    let lines = (0..=60).chain(more).flat_map(|digits| {
        let line = NEW_LIST.iter().cycle().take(digits).copied();
        let line: Vec<u8> = line.chain(*b"\n").collect();
        [&line, FREE, b"\n"].concat()
    });
    lines.collect()
}

fn long_line(ended: bool) -> Vec<u8> {
    let mut input = b"0".repeat(LONG);
    if ended {
        input.extend([b"\n", FREE, b"\n", NEW_LIST, b"\n", FREE, b"\n"].concat());
    }
    input
}

/// A line's length and a read's have no common divisor.
fn every_place_of_a_read() -> Vec<u8> {
    grown(1, 5, 2_100)
        .iter()
        .map(Frame::line)
        .collect::<String>()
        .into_bytes()
}
