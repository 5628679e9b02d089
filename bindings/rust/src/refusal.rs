//! The numbers given back other than 0.

use std::error::Error;
use std::fmt;

/// Why a call or a batch was refused: document 01's numbers 1 to 13.
///
/// What is refused has changed nothing.
///
/// ```
/// use jumperloft::Refusal;
///
/// assert_eq!(Refusal::NoNodes.number(), 10);
/// assert_eq!(Refusal::from_number(10), Some(Refusal::NoNodes));
/// assert_eq!(Refusal::try_from(11_u32), Ok(Refusal::IllFormed));
/// assert_eq!(Refusal::try_from(14_u8).unwrap_err().to_string(), "14 is the number of no refusal");
/// assert_eq!(Refusal::Full.to_string(), "the vector has 32,768 elements, which is the limit (9)");
/// ```
#[derive(Clone, Copy, Debug, PartialEq, Eq, Hash)]
#[repr(u8)]
pub enum Refusal {
    /// A party above 7.
    NoParty = 1,
    /// An operation above 10 hexadecimal.
    NoOperation = 2,
    /// Hand-over or free nodes from a party other than the host.
    HostOnly = 3,
    /// A slot above 7, a walk above 1, or a named party above 7.
    OutOfRange = 4,
    /// A named source slot is empty, or the walk is closed.
    EmptySource = 5,
    /// The slot to be filled is live, or the walk to be opened is open.
    LiveTarget = 6,
    /// Bits outside 1 to 5.
    BadBits = 7,
    /// An index not below the length, an element of an empty vector, or the end of a walk.
    NothingThere = 8,
    /// A push on length 32,768.
    Full = 9,
    /// Fewer free nodes than the call has to have.
    NoNodes = 10,
    /// The lent state isn't well-formed.
    IllFormed = 11,
    /// The room for answers is below 6 bytes a frame.
    NoRoom = 12,
    /// The request bytes are not a multiple of 12.
    Ragged = 13,
}

impl Refusal {
    /// All of them, by number.
    pub const ALL: [Refusal; 13] = [
        Refusal::NoParty,
        Refusal::NoOperation,
        Refusal::HostOnly,
        Refusal::OutOfRange,
        Refusal::EmptySource,
        Refusal::LiveTarget,
        Refusal::BadBits,
        Refusal::NothingThere,
        Refusal::Full,
        Refusal::NoNodes,
        Refusal::IllFormed,
        Refusal::NoRoom,
        Refusal::Ragged,
    ];

    /// Document 01's number.
    pub const fn number(self) -> u8 {
        self as u8
    }

    /// The refusal of a number, if there is one.
    pub fn from_number(number: u8) -> Option<Refusal> {
        Refusal::ALL
            .into_iter()
            .find(|refusal| refusal.number() == number)
    }

    const fn reason(self) -> &'static str {
        match self {
            Refusal::NoParty => "there is no party above 7",
            Refusal::NoOperation => "there is no such operation",
            Refusal::HostOnly => "only the host may ask this",
            Refusal::OutOfRange => "a slot, walk or party that there isn't",
            Refusal::EmptySource => "the slot is empty or the walk is closed",
            Refusal::LiveTarget => "the slot is live or the walk is open already",
            Refusal::BadBits => "bits are 1 to 5",
            Refusal::NothingThere => "there is no such element",
            Refusal::Full => "the vector has 32,768 elements, which is the limit",
            Refusal::NoNodes => "there are too few free nodes",
            Refusal::IllFormed => "the lent state is not well-formed",
            Refusal::NoRoom => "the room for answers is too small",
            Refusal::Ragged => "the requests are not whole frames",
        }
    }
}

impl fmt::Display for Refusal {
    fn fmt(&self, f: &mut fmt::Formatter<'_>) -> fmt::Result {
        write!(f, "{} ({})", self.reason(), self.number())
    }
}

impl Error for Refusal {}

impl From<Refusal> for u8 {
    fn from(refusal: Refusal) -> u8 {
        refusal.number()
    }
}

impl From<Refusal> for u32 {
    fn from(refusal: Refusal) -> u32 {
        refusal.number().into()
    }
}

impl TryFrom<u8> for Refusal {
    type Error = NoRefusal;

    fn try_from(number: u8) -> Result<Refusal, NoRefusal> {
        Refusal::from_number(number).ok_or(NoRefusal(number.into()))
    }
}

impl TryFrom<u32> for Refusal {
    type Error = NoRefusal;

    fn try_from(number: u32) -> Result<Refusal, NoRefusal> {
        let known = u8::try_from(number).ok().and_then(Refusal::from_number);
        known.ok_or(NoRefusal(number))
    }
}

/// A number that no refusal has: 0, which says that all was done, or one above 13.
#[derive(Clone, Copy, Debug, PartialEq, Eq, Hash)]
pub struct NoRefusal(pub u32);

impl fmt::Display for NoRefusal {
    fn fmt(&self, f: &mut fmt::Formatter<'_>) -> fmt::Result {
        write!(f, "{} is the number of no refusal", self.0)
    }
}

impl Error for NoRefusal {}
