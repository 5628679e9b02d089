//! The state as C sees it: every field where the header has it, and what is refused of a pointer.

use std::collections::BTreeMap;
use std::env;
use std::mem::offset_of;
use std::process::Command;
use std::ptr::null;
use std::sync::LazyLock;

use jumperloft::{
    LentState, Memory, Party, Refusal, STACK_SIZE, Sizes, Slot, State, StateRef, Version,
};

/// The fields of a `jumperloft1_state` that are pointers, each beside the field of `jumperloft1_sizes_of` for its size.
const SLICES: [[&str; 2]; 9] = [
    ["kinds", "nodes"],
    ["used", "used"],
    ["counts", "counts"],
    ["cells", "cells"],
    ["order", "order"],
    ["versions", "versions"],
    ["walk_numbers", "walk_numbers"],
    ["walk_nodes", "walk_nodes"],
    ["walk_indices", "walk_indices"],
];

const WORDS: usize = size_of::<LentState<'_>>() / size_of::<usize>();

/// A state as C has it: so many addresses and sizes.
type Words = [usize; WORDS];

/// By name, where a field begins, or how a struct is aligned; and the size of either.
type Layout = BTreeMap<String, (usize, usize)>;

/// What a C compiler makes of the header.
static IN_C: LazyLock<Layout> = LazyLock::new(|| {
    let program = concat!(env!("CARGO_TARGET_TMPDIR"), "/layout");
    let compiled = Command::new(env::var_os("CC").unwrap_or("cc".into()))
        .args(["-I../../include", "tests/binding/layout.c", "-o", program])
        .status();
    assert!(compiled.unwrap().success());
    let printed = Command::new(program).output().unwrap().stdout;
    let printed = String::from_utf8(printed).unwrap();
    let field = |line: &str| {
        let words = Vec::from_iter(line.split(' '));
        let [name, place, size] = words[..] else {
            panic!("{line}")
        };
        (
            name.to_owned(),
            (place.parse().unwrap(), size.parse().unwrap()),
        )
    };
    printed.lines().map(field).collect()
});

macro_rules! layout_of {
    ($name:literal, $type:ty, $field_type:ty: $($field:ident)+) => {
        [($name.to_owned(), (align_of::<$type>(), size_of::<$type>())),
         $((concat!($name, ".", stringify!($field)).to_owned(), (offset_of!($type, $field), size_of::<$field_type>()))),+]
    };
}

#[test]
fn records_have_every_field_where_c_has_it() {
    let mut in_c = IN_C.clone();
    let state = in_c.remove("state").unwrap();
    assert_eq!(
        state,
        (align_of::<LentState<'_>>(), size_of::<LentState<'_>>())
    );
    assert_eq!(in_c.remove("stack").unwrap().1, STACK_SIZE);
    in_c.retain(|name, _| !name.starts_with("state."));

    let version = layout_of!("version", Version, u32: live root bits length);
    let sizes = layout_of!("sizes_of", Sizes, usize:
        nodes used cells counts order versions walk_numbers walk_nodes walk_indices);
    assert_eq!(Layout::from_iter(version.into_iter().chain(sizes)), in_c);
}

/// Each slice's first address and length, in the order of the list above.
fn ends(memory: &Memory<'_>) -> [[usize; 2]; 9] {
    fn ends<T>(slice: &[T]) -> [usize; 2] {
        [slice.as_ptr().expose_provenance(), slice.len()]
    }
    [
        ends(memory.kinds),
        ends(memory.used),
        ends(memory.counts),
        ends(memory.cells),
        ends(memory.order),
        ends(memory.versions),
        ends(memory.walk_numbers),
        ends(memory.walk_nodes),
        ends(memory.walk_indices),
    ]
}

/// The words of a slice's address and size, as C has them.
fn places() -> [[usize; 2]; 9] {
    let begins = |name: String| IN_C[&name].0;
    SLICES.map(|[pointer, size]| {
        let pointer = begins(format!("state.{pointer}"));
        let size = begins("state.sizes".to_owned()) + begins(format!("sizes_of.{size}"));
        [pointer, size].map(|byte| byte / size_of::<usize>())
    })
}

fn written_by_c(ends: [[usize; 2]; 9]) -> Words {
    let mut words = [0; WORDS];
    for ([address_at, size_at], [address, size]) in places().into_iter().zip(ends) {
        words[address_at] = address;
        words[size_at] = size;
    }
    words
}

#[test]
fn a_state_lent_by_rust_is_what_c_would_write() {
    let mut state = State::new(40).unwrap();
    let ends = ends(&state.lend().into_memory());
    let lent = LentState::from(state.lend());
    // SAFETY: it consists of so many words.
    let words = unsafe { (&raw const lent).cast::<Words>().read() };
    assert_eq!(words, written_by_c(ends));
}

/// The state at an address that C passes.
fn at<'a>(words: *const u8) -> Result<StateRef<'a>, Refusal> {
    // SAFETY: each test passes the address of words that name a state's slices, or such as are refused before any is looked at.
    unsafe { StateRef::at(words.cast()) }
}

#[test]
fn a_state_written_by_c_is_the_same_to_rust() {
    let mut state = State::new(40).unwrap();
    let ends_before = ends(&state.lend().into_memory());
    let words = written_by_c(ends_before);
    let found = at(words.as_ptr().cast()).unwrap().into_memory();
    assert_eq!(ends(&found), ends_before);
}

#[test]
fn what_is_lent_and_found_again_is_one_state() {
    let mut state = State::new(40).unwrap();
    let lent = LentState::from(state.lend());
    let mut found = at((&raw const lent).cast()).unwrap();
    assert_eq!(found.audit(), Ok(()));
    found
        .party(Party::ALL[1])
        .new_vector(Slot::ALL[2], 5)
        .unwrap();
    assert_eq!(state.host().free_nodes(), Ok(39));
    assert_eq!(state.party(Party::ALL[1]).len(Slot::ALL[2]), Ok(0));
}

#[test]
fn an_address_that_is_null_or_not_aligned_is_refused() {
    let mut state = State::new(40).unwrap();
    let words = written_by_c(ends(&state.lend().into_memory()));
    assert!(at(words.as_ptr().cast()).is_ok());
    assert_eq!(at(null()).err(), Some(Refusal::IllFormed));
    let mut room = [0_usize; WORDS + 1];
    for off in 1..align_of::<usize>() {
        let there = room.as_mut_ptr().cast::<u8>().wrapping_add(off);
        // SAFETY: the room has a word more than is written.
        unsafe { there.cast::<Words>().write_unaligned(words) };
        assert_eq!(at(there).err(), Some(Refusal::IllFormed), "{off} bytes off");
    }
}

#[test]
fn a_slice_that_is_null_or_not_aligned_is_refused() {
    let mut state = State::new(40).unwrap();
    let right = ends(&state.lend().into_memory());
    for (slice, &[address, _]) in right.iter().enumerate() {
        // kinds and used are bytes, and aligned anywhere
        let off = if slice < 2 { 0..0 } else { 1..4 };
        for wrong in off.map(|off| address + off).chain([0]) {
            let mut ends = right;
            ends[slice][0] = wrong;
            let words = written_by_c(ends);
            let said = at(words.as_ptr().cast()).err();
            assert_eq!(
                said,
                Some(Refusal::IllFormed),
                "{} at {wrong}",
                SLICES[slice][0]
            );
        }
    }
}

#[test]
fn a_size_that_is_not_that_of_a_state_is_refused() {
    let mut state = State::new(40).unwrap();
    let right = ends(&state.lend().into_memory());
    for (slice, &[_, size]) in right.iter().enumerate() {
        for wrong in [0, size - 1, size + 1, usize::MAX] {
            let mut ends = right;
            ends[slice][1] = wrong;
            let words = written_by_c(ends);
            let said = at(words.as_ptr().cast()).err();
            assert_eq!(
                said,
                Some(Refusal::IllFormed),
                "{} of {wrong}",
                SLICES[slice][0]
            );
        }
    }
}
