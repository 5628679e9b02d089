//! How an input is cut into the pieces that are fed.

use crate::child::Way;
use frames::rng::Rng;

/// The most bytes that the program reads at once; more of a datagram would be lost.
const READ: usize = 4096;

#[derive(Clone, Copy, Debug, PartialEq, Eq)]
pub enum Cut {
    Whole,
    /// Single bytes.
    Bytes,
    /// Sizes around that of the program's reads.
    Reads,
    /// Sizes around a line, small ones and large ones.
    Any,
}

/// Every way to feed an input.
pub const WAYS: [(Cut, Way); 7] = [
    (Cut::Whole, Way::Pipe),
    (Cut::Bytes, Way::Pipe),
    (Cut::Reads, Way::Pipe),
    (Cut::Any, Way::Pipe),
    (Cut::Bytes, Way::Reads),
    (Cut::Reads, Way::Reads),
    (Cut::Any, Way::Reads),
];

impl Cut {
    /// No piece is empty; together they are the input.
    pub fn pieces<'a>(self, rng: &mut Rng, way: Way, input: &'a [u8]) -> Vec<&'a [u8]> {
        let mut pieces = Vec::new();
        let mut rest = input;
        while !rest.is_empty() {
            let most = match way {
                Way::Pipe => rest.len(),
                Way::Reads => rest.len().min(READ),
            };
            let (piece, others) = rest.split_at(self.size(rng, input.len()).min(most));
            pieces.push(piece);
            rest = others;
        }
        pieces
    }

    /// At least 1, if only the input is not empty.
    fn size(self, rng: &mut Rng, whole: usize) -> usize {
        match self {
            Cut::Whole => whole,
            Cut::Bytes => 1,
            Cut::Reads => rng.of(&[READ - 1, READ, READ + 1]),
            Cut::Any => match rng.below(8) {
                0 => rng.of(&[READ - 1, READ, READ + 1, 2 * READ + 1, 16 * READ]),
                1..=3 => rng.of(&[1, 2, 3, 12, 23, 24, 25, 26, 49, 50, 51]),
                _ => 1 + rng.below(300),
            },
        }
    }
}

#[cfg(test)]
mod tests {
    use super::*;

    #[test]
    fn pieces_are_not_empty_and_are_together_the_input() {
        let input: Vec<u8> = (0..100_000u32).map(|number| number as u8).collect();
        let mut rng = Rng::new(1);
        for length in [0, 1, READ, input.len()] {
            for (cut, way) in WAYS {
                let pieces = cut.pieces(&mut rng, way, &input[..length]);
                assert!(pieces.iter().all(|piece| !piece.is_empty()));
                assert_eq!(pieces.concat(), &input[..length], "{cut:?} {way:?}");
            }
        }
    }
}
