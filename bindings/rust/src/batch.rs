//! Many requests in one call.

use std::fmt;
use std::iter::Map;
use std::slice::Iter;

use crate::{Frame, Refusal};

/// Frames to be run in order by one call, with one audit for all of them.
///
/// A refused frame doesn't stop those after it. For frames of one party, see [`PartyHandle::batch`](crate::PartyHandle::batch).
///
/// ```
/// use jumperloft::{Batch, Frame, Party, Refusal, Slot, State};
///
/// let (party, [empty, one, ..]) = (Party::new(1)?, Slot::ALL);
/// let mut batch = Batch::new();
/// batch
///     .push(Frame::new_vector(party, empty, 5))
///     .push(Frame::push_back(party, empty, one, 7))
///     .push(Frame::get(party, one, 0))
///     .push(Frame::get(party, one, 1));
///
/// let answers = State::new(256)?.run(&batch)?;
/// assert_eq!(answers[2].result()?.value, 7);
/// for (frame, answer) in batch.iter().zip(answers) {
///     assert!(answer.result().is_ok() || frame == Frame::get(party, one, 1));
/// }
/// # Ok::<(), Refusal>(())
/// ```
#[derive(Clone, Default, PartialEq, Eq, Hash)]
pub struct Batch {
    requests: Vec<[u8; Frame::SIZE]>,
}

/// The frames of a [`Batch`] in order.
pub type Frames<'a> = Map<Iter<'a, [u8; Frame::SIZE]>, fn(&[u8; Frame::SIZE]) -> Frame>;

impl Batch {
    /// A batch of no frames.
    pub const fn new() -> Batch {
        Batch {
            requests: Vec::new(),
        }
    }

    /// A batch of no frames, with room for so many.
    pub fn with_capacity(frames: usize) -> Batch {
        Batch {
            requests: Vec::with_capacity(frames),
        }
    }

    /// Puts a frame at the end.
    pub fn push(&mut self, frame: Frame) -> &mut Batch {
        self.requests.push(frame.to_bytes());
        self
    }

    /// How many frames there are.
    pub fn len(&self) -> usize {
        self.requests.len()
    }

    /// Whether there is none.
    pub fn is_empty(&self) -> bool {
        self.requests.is_empty()
    }

    /// Takes all frames out and keeps their room.
    pub fn clear(&mut self) {
        self.requests.clear();
    }

    /// The frames in order.
    pub fn iter(&self) -> Frames<'_> {
        self.requests.iter().map(|bytes| Frame::from_bytes(*bytes))
    }

    /// The requests as they are sent.
    pub fn as_bytes(&self) -> &[u8] {
        self.requests.as_flattened()
    }
}

impl<'a> IntoIterator for &'a Batch {
    type Item = Frame;
    type IntoIter = Frames<'a>;

    fn into_iter(self) -> Frames<'a> {
        self.iter()
    }
}

impl Extend<Frame> for Batch {
    fn extend<Frames: IntoIterator<Item = Frame>>(&mut self, frames: Frames) {
        self.requests
            .extend(frames.into_iter().map(Frame::to_bytes));
    }
}

impl FromIterator<Frame> for Batch {
    fn from_iter<Frames: IntoIterator<Item = Frame>>(frames: Frames) -> Batch {
        let mut batch = Batch::new();
        batch.extend(frames);
        batch
    }
}

/// Requests that someone else wrote; refused with [`Refusal::Ragged`] where they are not whole frames.
///
/// ```
/// use jumperloft::{Batch, Frame, Refusal};
///
/// let batch = Batch::try_from([0, 13, 0, 0, 0, 0, 0, 0, 0, 0, 0, 0].as_slice())?;
/// assert_eq!(batch.iter().collect::<Vec<_>>(), [Frame::free_nodes()]);
/// assert_eq!(Batch::try_from([0; 11].as_slice()), Err(Refusal::Ragged));
/// # Ok::<(), Refusal>(())
/// ```
impl TryFrom<&[u8]> for Batch {
    type Error = Refusal;

    fn try_from(bytes: &[u8]) -> Result<Batch, Refusal> {
        let (requests, rest) = bytes.as_chunks();
        if !rest.is_empty() {
            return Err(Refusal::Ragged);
        }
        Ok(Batch {
            requests: requests.to_vec(),
        })
    }
}

impl fmt::Debug for Batch {
    fn fmt(&self, f: &mut fmt::Formatter<'_>) -> fmt::Result {
        f.debug_list().entries(self).finish()
    }
}
