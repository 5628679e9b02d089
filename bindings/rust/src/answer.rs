//! Answers of 6 bytes.

use crate::Refusal;

/// What a frame that wasn't refused answers.
#[derive(Clone, Copy, Debug, Default, PartialEq, Eq, Hash)]
pub struct Served {
    /// Nodes that the result has and that were not in use before: what the free nodes fell by.
    pub fresh: u8,
    /// The length, element, comparison or number of free nodes; 0 where none is named.
    pub value: u32,
}

/// What an edit that was done tells.
#[derive(Clone, Copy, Debug, Default, PartialEq, Eq, Hash)]
pub struct Edited {
    /// Nodes that the result has and that were not in use before: what the free nodes fell by.
    pub fresh: u8,
}

/// The answer to one frame of a batch.
///
/// ```
/// use jumperloft::{Answer, Refusal, Served};
///
/// let done = Answer::from_bytes([0, 1, 0, 0, 0, 7]);
/// assert_eq!(done.map(Answer::result), Some(Ok(Served { fresh: 1, value: 7 })));
/// let refused = Answer::from_bytes([8, 0, 0, 0, 0, 0]);
/// assert_eq!(refused.map(Answer::result), Some(Err(Refusal::NothingThere)));
/// ```
#[derive(Clone, Copy, Debug, PartialEq, Eq, Hash)]
pub struct Answer(Result<Served, Refusal>);

impl Answer {
    /// Bytes of an answer.
    pub const SIZE: usize = 6;

    /// What was answered, or why it was refused.
    pub const fn result(self) -> Result<Served, Refusal> {
        self.0
    }

    /// The answer of these bytes; none where the number isn't one of document 01's, or a refusal isn't followed by zeros.
    pub fn from_bytes(bytes: [u8; Answer::SIZE]) -> Option<Answer> {
        let [number, fresh, value @ ..] = bytes;
        let served = Served {
            fresh,
            value: u32::from_be_bytes(value),
        };
        if number == 0 {
            return Some(Answer(Ok(served)));
        }
        let refusal = Refusal::from_number(number)?;
        (served == Served::default()).then_some(Answer(Err(refusal)))
    }

    /// The answers in a room that [`StateRef::run_into`](crate::StateRef::run_into) wrote, in order; bytes beyond the last whole one
    /// are left out.
    ///
    /// ```
    /// use jumperloft::{Answer, Batch, Frame, Refusal, State};
    ///
    /// let mut state = State::new(64)?;
    /// let batch: Batch = [Frame::free_nodes(); 3].into_iter().collect();
    /// let mut room = [0; 100];
    /// let ran = state.run_into(batch.as_bytes(), &mut room)?;
    /// for answer in Answer::each_in(&room).take(ran).flatten() {
    ///     assert_eq!(answer.result()?.value, 64);
    /// }
    /// # Ok::<(), Refusal>(())
    /// ```
    pub fn each_in(room: &[u8]) -> impl ExactSizeIterator<Item = Option<Answer>> + '_ {
        let (answers, _) = room.as_chunks();
        answers.iter().map(|bytes| Answer::from_bytes(*bytes))
    }

    /// The answer as it is sent.
    pub fn to_bytes(self) -> [u8; Answer::SIZE] {
        let number = self.0.map_or_else(Refusal::number, |_| 0);
        let served = self.0.unwrap_or_default();
        let [v0, v1, v2, v3] = served.value.to_be_bytes();
        [number, served.fresh, v0, v1, v2, v3]
    }
}

impl From<Result<Served, Refusal>> for Answer {
    fn from(result: Result<Served, Refusal>) -> Answer {
        Answer(result)
    }
}

impl From<Served> for Edited {
    fn from(served: Served) -> Edited {
        Edited {
            fresh: served.fresh,
        }
    }
}
