//! The plain table of document 01, written from its text alone: for each live slot its bits and list of values, for each open walk
//! the values not yet taken.

use std::collections::{HashMap, VecDeque};

use jumperloft::{Frame, Refusal, Served};

/// A party and one of its slots or walks.
type Place = (u8, u8);

#[derive(Clone, Debug, PartialEq, Eq)]
pub struct Vector {
    pub bits: u32,
    pub values: Vec<u32>,
}

#[derive(Debug, Default)]
pub struct Model {
    pub slots: HashMap<Place, Vector>,
    pub walks: HashMap<Place, VecDeque<u32>>,
}

/// The places that a frame names.
#[derive(Default)]
struct Named {
    sources: Vec<Place>,
    walked: Option<Place>,
    filled: Option<Place>,
    opened: Option<Place>,
}

impl Model {
    /// What a frame answers where so many nodes are free. A refused one changes nothing.
    pub fn answer(&mut self, frame: Frame, free: u32) -> Result<Served, Refusal> {
        let named = self.checked(frame)?;
        let (fresh, charge, result) = self.edited(frame, &named)?;
        if charge > free {
            return Err(Refusal::NoNodes);
        }
        if let (Some(place), Some(vector)) = (named.filled, result) {
            self.slots.insert(place, vector);
        }
        let value = self.served(frame, &named, free)?;
        Ok(Served { fresh, value })
    }

    /// The checks 1 to 6.
    fn checked(&self, frame: Frame) -> Result<Named, Refusal> {
        if frame.party > 7 {
            return Err(Refusal::NoParty);
        }
        if frame.operation > 0x10 {
            return Err(Refusal::NoOperation);
        }
        if matches!(frame.operation, 0x0C | 0x0D) && frame.party != 0 {
            return Err(Refusal::HostOnly);
        }
        let named = named(frame)?;
        let mut slots = named.sources.iter().chain(&named.filled);
        let mut walks = named.walked.iter().chain(&named.opened);
        if slots.any(|place| place.1 > 7) || walks.any(|place| place.1 > 1) {
            return Err(Refusal::OutOfRange);
        }
        let empty = |place: &Place| !self.slots.contains_key(place);
        let closed = |place: &Place| !self.walks.contains_key(place);
        if named.sources.iter().any(empty) || named.walked.iter().any(closed) {
            return Err(Refusal::EmptySource);
        }
        if !named.filled.iter().all(empty) || !named.opened.iter().all(closed) {
            return Err(Refusal::LiveTarget);
        }
        Ok(named)
    }

    /// The fresh nodes, the charge and the result of a frame that fills a slot; the checks 7 to 9 of it.
    fn edited(&self, frame: Frame, named: &Named) -> Result<(u8, u32, Option<Vector>), Refusal> {
        if frame.operation == 0x00 {
            return new_vector(frame.index).map(|vector| (1, 1, Some(vector)));
        }
        let (Some(source), Some(_)) = (named.sources.first(), named.filled) else {
            return Ok((0, 0, None));
        };
        let mut vector = self.slots[source].clone();
        let (bits, length) = (vector.bits, vector.values.len());
        let path = height(bits, length) + 1;
        let (fresh, charge) = match frame.operation {
            0x05 => {
                let cell = vector.values.get_mut(frame.index as usize);
                *cell.ok_or(Refusal::NothingThere)? = frame.value;
                (path, path)
            }
            0x06 if length == jumperloft::MOST_ELEMENTS => return Err(Refusal::Full),
            0x06 => {
                vector.values.push(frame.value);
                let path = height(bits, length + 1) + 1;
                (path, path)
            }
            0x07 => {
                vector.values.pop().ok_or(Refusal::NothingThere)?;
                (fresh_of_drop(bits, length), path)
            }
            _ => (0, 0),
        };
        Ok((fresh as u8, charge, Some(vector)))
    }

    /// What a frame that fills no slot does, and the value that it answers; the check 8 of it.
    fn served(&mut self, frame: Frame, named: &Named, free: u32) -> Result<u32, Refusal> {
        let list = |n: usize| &self.slots[&named.sources[n]].values;
        let element = match frame.operation {
            0x02 => self.slots.remove(&named.sources[0]).map(|_| 0),
            0x03 => Some(list(0).len() as u32),
            0x04 => list(0).get(frame.index as usize).copied(),
            0x08 => {
                let values = list(0).iter().copied().collect();
                self.walks.extend(named.opened.map(|place| (place, values)));
                Some(0)
            }
            0x09 => self.walked(named).and_then(VecDeque::pop_front),
            0x0A => self.walked(named).and_then(VecDeque::pop_back),
            0x0B => named
                .walked
                .and_then(|place| self.walks.remove(&place))
                .map(|_| 0),
            0x0D => Some(free),
            0x0E => list(0).first().copied(),
            0x0F => list(0).last().copied(),
            0x10 => Some((list(0).cmp(list(1)) as i32) as u32),
            _ => Some(0),
        };
        element.ok_or(Refusal::NothingThere)
    }

    fn walked(&mut self, named: &Named) -> Option<&mut VecDeque<u32>> {
        self.walks.get_mut(&named.walked?)
    }
}

fn new_vector(bits: u32) -> Result<Vector, Refusal> {
    if !(1..=5).contains(&bits) {
        return Err(Refusal::BadBits);
    }
    let values = Vec::new();
    Ok(Vector { bits, values })
}

fn named(frame: Frame) -> Result<Named, Refusal> {
    let slot = (frame.party, frame.slot);
    let destination = (frame.party, frame.destination);
    let nothing = Named::default();
    Ok(match frame.operation {
        0x00 => Named {
            filled: Some(destination),
            ..nothing
        },
        0x01 | 0x05..=0x07 => Named {
            sources: vec![slot],
            filled: Some(destination),
            ..nothing
        },
        0x08 => Named {
            sources: vec![slot],
            opened: Some(destination),
            ..nothing
        },
        0x09..=0x0B => Named {
            walked: Some(slot),
            ..nothing
        },
        0x0C => {
            if frame.index > 7 || frame.value > 7 {
                return Err(Refusal::OutOfRange);
            }
            let source = (frame.index as u8, frame.slot);
            let filled = (frame.value as u8, frame.destination);
            Named {
                sources: vec![source],
                filled: Some(filled),
                ..nothing
            }
        }
        0x0D => nothing,
        0x10 => Named {
            sources: vec![slot, destination],
            ..nothing
        },
        _ => Named {
            sources: vec![slot],
            ..nothing
        },
    })
}

fn height(bits: u32, length: usize) -> u32 {
    if length <= 1 {
        return 0;
    }
    (usize::BITS - (length - 1).leading_zeros()).div_ceil(bits) - 1
}

fn fresh_of_drop(bits: u32, length: usize) -> u32 {
    let (top, left) = (height(bits, length), length - 1);
    let degree_to = |power: u32| 1_usize << (bits * power);
    if length == 1 {
        1
    } else if top >= 1 && left == degree_to(top) {
        0
    } else {
        (0..=top).filter(|k| left % degree_to(k + 1) != 0).count() as u32
    }
}
