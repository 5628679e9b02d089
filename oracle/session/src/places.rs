//! The slots and walks that a frame names, by the fields that its operation uses.

use frames::numbers::*;
use frames::Frame;

#[derive(Clone, Copy, Debug, PartialEq, Eq)]
pub enum Place {
    Slot { party: u32, slot: u8 },
    Walk { party: u32, walk: u8 },
}

impl Place {
    pub fn is_in_range(self) -> bool {
        match self {
            Place::Slot { party, slot } => party < u32::from(PARTIES) && slot < SLOTS,
            Place::Walk { party, walk } => party < u32::from(PARTIES) && walk < WALKS,
        }
    }
}

/// What must be live, and what must not be as it is to be filled or opened.
#[derive(Debug, Default)]
pub struct Places {
    pub sources: Vec<Place>,
    pub filled: Option<Place>,
}

impl Places {
    /// For operations up to 10 hexadecimal.
    pub fn of(frame: &Frame) -> Places {
        let own = u32::from(frame.party);
        let slot = |party, slot| Place::Slot { party, slot };
        let walk = |walk| Place::Walk { party: own, walk };

        let source = slot(own, frame.slot);
        let (sources, filled) = match frame.operation {
            NEW => (vec![], Some(slot(own, frame.destination))),
            CLONE | SET | PUSH_BACK | DROP_LAST => {
                (vec![source], Some(slot(own, frame.destination)))
            }
            OPEN_WALK => (vec![source], Some(walk(frame.destination))),
            NEXT | NEXT_BACK | CLOSE_WALK => (vec![walk(frame.slot)], None),
            HAND_OVER => (
                vec![slot(frame.index, frame.slot)],
                Some(slot(frame.value, frame.destination)),
            ),
            FREE_NODES => (vec![], None),
            COMPARE => (vec![source, slot(own, frame.destination)], None),
            RELEASE | LENGTH | GET | FIRST | LAST => (vec![source], None),
            other => unreachable!("operation {other:02X} is refused before"),
        };
        Places { sources, filled }
    }

    pub fn all(&self) -> impl Iterator<Item = Place> + '_ {
        self.sources.iter().copied().chain(self.filled)
    }
}
