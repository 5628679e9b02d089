//! `judge record` and `judge recorded`: a file of costs, every number in it measured on the original.

use crate::measure::{at_every_length, is_noted, Cost, Measured};
use formulas::BITS;
use original::vector::probe;
use std::path::Path;
use std::{fs, io};

const FILE: &str = "costs.txt";
const HEADER: &str = "# Costs in nodes, taken from src/vector/mod.rs of rpds 1.2.1 by `cargo run --release --offline -p judge -- record recorded`: bits, length, height, push fresh, push charge, set fresh, set charge, drop fresh, drop charge, nodes (- where refused); last, the FNV-1a checksum of such rows for every length\n";

pub fn write(directory: &Path) -> io::Result<bool> {
    let text = recorded_text();
    fs::create_dir_all(directory)?;
    fs::write(directory.join(FILE), &text)?;
    println!("recorded: {} lines written", text.lines().count());
    Ok(true)
}

/// Says whether the file is, byte for byte, what would be written now.
pub fn compare(directory: &Path) -> io::Result<bool> {
    let recorded = fs::read(directory.join(FILE))?;
    let text = recorded_text();
    if recorded == text.as_bytes() {
        let lines = text.lines().count();
        println!("recorded: {lines} lines agree with the original byte for byte");
        return Ok(true);
    }
    let recorded = recorded.split_inclusive(|byte| *byte == b'\n');
    let now = text.as_bytes().split_inclusive(|byte| *byte == b'\n');
    let agreeing = recorded.zip(now).take_while(|(old, new)| old == new);
    println!(
        "recorded: differs from the original at line {}",
        agreeing.count() + 1
    );
    Ok(false)
}

fn recorded_text() -> String {
    let mut text = String::from(HEADER);
    let mut checksum = Fnv1a::default();
    let mut rows = 0;
    for bits in BITS {
        at_every_length(bits, |length, measured| {
            let row = row(bits, length, measured);
            checksum.feed(row.as_bytes());
            rows += 1;
            if is_noted(bits, length) {
                text.push_str(&row);
            }
        });
    }
    text.push_str(&format!("fnv1a64 of {rows} rows: {:016x}\n", checksum.0));
    text
}

fn row(bits: u32, length: u32, measured: &Measured) -> String {
    let height = probe::height(&measured.list);
    let push = columns(measured.push.as_ref().map(|call| call.cost));
    let set = columns(set_cost(measured));
    let drop = columns(measured.drop.as_ref().map(|call| call.cost));
    let nodes = measured.nodes;
    format!("{bits} {length} {height} {push} {set} {drop} {nodes}\n")
}

fn set_cost(measured: &Measured) -> Option<Cost> {
    let mut costs = measured.sets.iter().map(|(_, call)| call.cost);
    let first = costs.next()?;
    assert!(
        costs.all(|cost| cost == first),
        "a set costs the same at any index"
    );
    Some(first)
}

fn columns(cost: Option<Cost>) -> String {
    cost.map_or(String::from("- -"), |Cost { fresh, charge }| {
        format!("{fresh} {charge}")
    })
}

/// The 64-bit FNV-1a checksum.
struct Fnv1a(u64);

impl Default for Fnv1a {
    fn default() -> Self {
        Fnv1a(0xcbf2_9ce4_8422_2325)
    }
}

impl Fnv1a {
    fn feed(&mut self, bytes: &[u8]) {
        for byte in bytes {
            self.0 = (self.0 ^ u64::from(*byte)).wrapping_mul(0x0000_0100_0000_01b3);
        }
    }
}

#[cfg(test)]
mod tests {
    use super::*;

    #[test]
    fn the_checksum_is_fnv_1a() {
        let known = [
            ("", 0xcbf2_9ce4_8422_2325),
            ("a", 0xaf63_dc4c_8601_ec8c),
            ("foobar", 0x8594_4171_f739_67e8),
        ];
        for (text, expected) in known {
            let mut checksum = Fnv1a::default();
            checksum.feed(text.as_bytes());
            assert_eq!(checksum.0, expected, "{text}");
        }
    }
}
