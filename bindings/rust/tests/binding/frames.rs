//! Random frames, most of them such that they are served.

use jumperloft::Frame;

use crate::model::Model;
use crate::random::Random;

const PARTIES: u32 = 3;

pub fn random_frame(random: &mut Random, model: &Model) -> Frame {
    match random.below(5) {
        0 => any_frame(random),
        _ => likely_frame(random, model),
    }
}

/// Numbers in and a little out of range.
fn any_frame(random: &mut Random) -> Frame {
    let mut small = |limit| random.below(limit);
    Frame {
        party: small(9) as u8,
        operation: small(0x12) as u8,
        slot: small(9) as u8,
        destination: small(9) as u8,
        index: small(9),
        value: small(9),
    }
}

/// From a live slot to an empty one, where there are such; otherwise a release. Pushes are the most frequent.
fn likely_frame(random: &mut Random, model: &Model) -> Frame {
    let party = random.below(PARTIES) as u8;
    let (live, empty): (Vec<u8>, Vec<u8>) =
        (0..8).partition(|slot| model.slots.contains_key(&(party, *slot)));
    let longest = live
        .iter()
        .copied()
        .max_by_key(|slot| model.slots[&(party, *slot)].values.len());
    let source = if random.below(2) == 0 {
        longest
    } else {
        random.one_of(&live)
    };
    let length = source.map_or(0, |slot| model.slots[&(party, slot)].values.len()) as u32;
    let operation = match (source, empty.len()) {
        (None, _) => 0x00,
        (_, 0..=1) => 0x02,
        _ => random
            .one_of(&[
                0, 1, 2, 3, 4, 4, 5, 5, 6, 6, 6, 6, 6, 6, 7, 7, 8, 9, 9, 10, 10, 11, 12, 13, 14,
                15, 16,
            ])
            .unwrap_or(6),
    };
    let on_walk = matches!(operation, 0x09..=0x0B);
    let shortest = live
        .iter()
        .copied()
        .min_by_key(|slot| model.slots[&(party, *slot)].values.len());
    let slot = match operation {
        0x02 => shortest,
        _ if on_walk => Some(random.below(2) as u8),
        _ => source,
    };
    let destination = match operation {
        0x08 => Some(random.below(2) as u8),
        0x10 => random.one_of(&live),
        _ => random.one_of(&empty),
    };
    Frame {
        party: if matches!(operation, 0x0C | 0x0D) {
            0
        } else {
            party
        },
        operation,
        slot: slot.unwrap_or(0),
        destination: destination.unwrap_or(0),
        index: match operation {
            0x00 => 1 + random.below(5),
            0x0C => u32::from(party),
            _ => random.below(length + 1),
        },
        value: match operation {
            0x0C => random.below(PARTIES),
            _ => random.below(4).wrapping_sub(1),
        },
    }
}
