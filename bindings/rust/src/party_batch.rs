//! Many requests of one party in one call.

use crate::{Answer, Batch, Frame, PartyHandle, Refusal, Slot, Walk};

/// Frames of one party, to be run in order by one call: [`PartyHandle::batch`] begins one.
///
/// Each call audits the whole state, so a thousand frames in one batch take a small part of the time of a thousand calls. A refused
/// frame doesn't stop those after it.
///
/// ```
/// use jumperloft::{Party, Refusal, Slot, State};
///
/// let mut state = State::new(256)?;
/// let mut plug_in = state.party(Party::new(1)?);
/// let [empty, one, two, ..] = Slot::ALL;
/// let answers = plug_in
///     .batch()
///     .new_vector(empty, 5)
///     .push_back(empty, one, 7)
///     .push_back(one, two, 9)
///     .get(two, 1)
///     .get(two, 2)
///     .run()?;
/// assert_eq!(answers[3].result()?.value, 9);
/// assert_eq!(answers[4].result(), Err(Refusal::NothingThere));
/// # Ok::<(), Refusal>(())
/// ```
///
/// Whatever party a frame names, it is run for the handle's, so that frames may come from anyone:
///
/// ```
/// # use jumperloft::{Frame, Party, Refusal, Slot, State};
/// # let mut state = State::new(256)?;
/// # let ([_, author, plug_in, ..], slot) = (Party::ALL, Slot::ALL[0]);
/// state.party(author).new_vector(slot, 5)?;
/// let forged = Frame::release(author, slot);
/// let answers = state.party(plug_in).batch().push(forged).run()?;
/// assert_eq!(answers[0].result(), Err(Refusal::EmptySource));
/// assert_eq!(state.party(author).len(slot), Ok(0));
/// # Ok::<(), Refusal>(())
/// ```
#[derive(Debug)]
pub struct PartyBatch<'a> {
    handle: PartyHandle<'a>,
    frames: Batch,
}

impl<'a> PartyBatch<'a> {
    pub(crate) fn of(handle: PartyHandle<'a>) -> PartyBatch<'a> {
        PartyBatch {
            handle,
            frames: Batch::new(),
        }
    }

    /// Puts a frame at the end, as one of this party.
    pub fn push(&mut self, frame: Frame) -> &mut PartyBatch<'a> {
        let party = self.handle.party().number();
        self.frames.push(Frame { party, ..frame });
        self
    }

    /// The frames so far.
    pub fn frames(&self) -> &Batch {
        &self.frames
    }

    /// Takes all frames out and keeps their room.
    pub fn clear(&mut self) {
        self.frames.clear();
    }

    /// Runs the frames in order and answers each; they stay, to be run again or taken out.
    pub fn run(&mut self) -> Result<Vec<Answer>, Refusal> {
        self.handle.runs(&self.frames)
    }
}

/// One for each call of [`PartyHandle`], which says what each does.
#[allow(missing_docs)]
impl<'a> PartyBatch<'a> {
    pub fn new_vector(&mut self, to: Slot, bits: u32) -> &mut PartyBatch<'a> {
        self.push(Frame::new_vector(self.handle.party(), to, bits))
    }

    pub fn clone_slot(&mut self, from: Slot, to: Slot) -> &mut PartyBatch<'a> {
        self.push(Frame::clone_slot(self.handle.party(), from, to))
    }

    pub fn release(&mut self, slot: Slot) -> &mut PartyBatch<'a> {
        self.push(Frame::release(self.handle.party(), slot))
    }

    pub fn len(&mut self, slot: Slot) -> &mut PartyBatch<'a> {
        self.push(Frame::len(self.handle.party(), slot))
    }

    pub fn get(&mut self, slot: Slot, index: u32) -> &mut PartyBatch<'a> {
        self.push(Frame::get(self.handle.party(), slot, index))
    }

    pub fn set(&mut self, from: Slot, to: Slot, index: u32, value: u32) -> &mut PartyBatch<'a> {
        self.push(Frame::set(self.handle.party(), from, to, index, value))
    }

    pub fn push_back(&mut self, from: Slot, to: Slot, value: u32) -> &mut PartyBatch<'a> {
        self.push(Frame::push_back(self.handle.party(), from, to, value))
    }

    pub fn drop_last(&mut self, from: Slot, to: Slot) -> &mut PartyBatch<'a> {
        self.push(Frame::drop_last(self.handle.party(), from, to))
    }

    pub fn open_walk(&mut self, slot: Slot, walk: Walk) -> &mut PartyBatch<'a> {
        self.push(Frame::open_walk(self.handle.party(), slot, walk))
    }

    pub fn next(&mut self, walk: Walk) -> &mut PartyBatch<'a> {
        self.push(Frame::next(self.handle.party(), walk))
    }

    pub fn next_back(&mut self, walk: Walk) -> &mut PartyBatch<'a> {
        self.push(Frame::next_back(self.handle.party(), walk))
    }

    pub fn close_walk(&mut self, walk: Walk) -> &mut PartyBatch<'a> {
        self.push(Frame::close_walk(self.handle.party(), walk))
    }

    pub fn first(&mut self, slot: Slot) -> &mut PartyBatch<'a> {
        self.push(Frame::first(self.handle.party(), slot))
    }

    pub fn last(&mut self, slot: Slot) -> &mut PartyBatch<'a> {
        self.push(Frame::last(self.handle.party(), slot))
    }

    pub fn compare(&mut self, slot: Slot, other: Slot) -> &mut PartyBatch<'a> {
        self.push(Frame::compare(self.handle.party(), slot, other))
    }
}

impl Extend<Frame> for PartyBatch<'_> {
    fn extend<Frames: IntoIterator<Item = Frame>>(&mut self, frames: Frames) {
        for frame in frames {
            self.push(frame);
        }
    }
}
