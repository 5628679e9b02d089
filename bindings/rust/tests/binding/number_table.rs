//! Every limit, operation and number of the crate against the library's own, as the program `number_table` prints them.

use std::collections::BTreeMap;
use std::fs;

use jumperloft::{
    Answer, DEFAULT_BITS, Frame, MOST_BITS, MOST_ELEMENTS, Memory, Operation, Party, Refusal,
    Served, Slot, Walk,
};

const TABLE: &str = "../../crates/number_table/stdout";

/// The program's number for a line that isn't a frame, which no call gives back.
const OF_THE_PROGRAM: &str = "NOT_A_FRAME";

fn printed() -> BTreeMap<String, usize> {
    let text = fs::read_to_string(TABLE).unwrap_or_else(|error| panic!("{TABLE}: {error}"));
    let mut table = BTreeMap::new();
    for line in text.lines() {
        let (name, value) = line.split_once(' ').expect(line);
        let before = table.insert(name.to_owned(), value.parse().expect(line));
        assert_eq!(before, None, "{line}");
    }
    table
}

const LIMITS: [(&str, usize); 13] = [
    ("MAX_NODES", Memory::MOST_NODES),
    ("NODE_CELLS", Memory::NODE_CELLS),
    ("PARTIES", Party::ALL.len()),
    ("SLOTS", Slot::ALL.len()),
    ("WALKS", Walk::ALL.len()),
    ("VERSIONS", Memory::VERSIONS),
    ("WALK_NUMBERS", Memory::WALK_NUMBERS),
    ("WALK_LEVELS", Memory::WALK_LEVELS),
    ("DEFAULT_BITS", DEFAULT_BITS as usize),
    ("MAX_BITS", MOST_BITS as usize),
    ("MAX_LENGTH", MOST_ELEMENTS),
    ("FRAME_SIZE", Frame::SIZE),
    ("ANSWER_SIZE", Answer::SIZE),
];

const OPERATIONS: [(&str, Operation); 17] = [
    ("NEW", Operation::NewVector),
    ("CLONE", Operation::CloneSlot),
    ("RELEASE", Operation::Release),
    ("LEN", Operation::Len),
    ("GET", Operation::Get),
    ("SET", Operation::Set),
    ("PUSH_BACK", Operation::PushBack),
    ("DROP_LAST", Operation::DropLast),
    ("OPEN_WALK", Operation::OpenWalk),
    ("NEXT", Operation::Next),
    ("NEXT_BACK", Operation::NextBack),
    ("CLOSE_WALK", Operation::CloseWalk),
    ("HAND_OVER", Operation::HandOver),
    ("FREE_NODES", Operation::FreeNodes),
    ("FIRST", Operation::First),
    ("LAST", Operation::Last),
    ("COMPARE", Operation::Compare),
];

const REFUSALS: [(&str, Refusal); 13] = [
    ("NO_PARTY", Refusal::NoParty),
    ("NO_OPERATION", Refusal::NoOperation),
    ("HOST_ONLY", Refusal::HostOnly),
    ("OUT_OF_RANGE", Refusal::OutOfRange),
    ("EMPTY_SOURCE", Refusal::EmptySource),
    ("LIVE_TARGET", Refusal::LiveTarget),
    ("BAD_BITS", Refusal::BadBits),
    ("NOTHING_THERE", Refusal::NothingThere),
    ("FULL", Refusal::Full),
    ("NO_NODES", Refusal::NoNodes),
    ("ILL_FORMED", Refusal::IllFormed),
    ("NO_ROOM", Refusal::NoRoom),
    ("RAGGED", Refusal::Ragged),
];

#[test]
fn the_crate_and_the_library_have_the_same_numbers() {
    let [done, ..] = Answer::from(Ok(Served::default())).to_bytes();
    let operations = OPERATIONS.map(|(name, operation)| (name, operation.number().into()));
    let refusals = REFUSALS.map(|(name, refusal)| (name, refusal.number().into()));
    let ours = [("DONE", done.into())].into_iter().chain(LIMITS);
    let ours = ours.chain(operations).chain(refusals);
    let mut table = printed();
    let of_the_program = table.remove(OF_THE_PROGRAM).expect(OF_THE_PROGRAM);
    assert_eq!(
        BTreeMap::from_iter(ours.map(|(name, number)| (name.to_owned(), number))),
        table
    );
    assert!(Refusal::try_from(of_the_program as u32).is_err());
}

#[test]
fn all_of_them_are_listed_in_order() {
    assert_eq!(Operation::ALL, OPERATIONS.map(|(_, operation)| operation));
    assert_eq!(Refusal::ALL, REFUSALS.map(|(_, refusal)| refusal));
}
