//! im-rc's vectors of 32-bit numbers behind C functions, for `boundary bench`, which loads this library where there is one.

use im_rc::Vector;
use std::cmp::Ordering;
use std::hint::black_box;
use std::slice;

type List = Vector<u32>;
/// An index and a value.
type Pick = [u32; 2];

/// Lists with the same elements that share nothing.
#[no_mangle]
pub unsafe extern "C" fn im_rc_make(
    lists: usize,
    values: *const u32,
    count: usize,
) -> *mut Vec<List> {
    // SAFETY: the caller's slice has so many elements
    let values = unsafe { slice::from_raw_parts(values, count) };
    let grown = |_| {
        let mut list = List::new();
        for value in values {
            edit(&mut list, |next| next.push_back(*value));
        }
        list
    };
    Box::into_raw(Box::new((0..lists).map(grown).collect()))
}

#[no_mangle]
pub unsafe extern "C" fn im_rc_unmake(lists: *mut Vec<List>) {
    // SAFETY: they are of `im_rc_make`, and no call follows
    drop(unsafe { Box::from_raw(lists) });
}

/// Of elements in their order, as `boundary bench` has it.
#[no_mangle]
pub unsafe extern "C" fn im_rc_sum(lists: *const Vec<List>, read: u64) -> u64 {
    // SAFETY: they are of `im_rc_make`
    let elements = unsafe { &*lists }.iter().flatten();
    elements.fold(read, |sum, element| {
        sum.wrapping_mul(31).wrapping_add(u64::from(*element))
    })
}

/// The work that `boundary bench` numbers so; answers the sum of what is read.
#[no_mangle]
pub unsafe extern "C" fn im_rc_run(
    lists: *mut Vec<List>,
    work: u32,
    picks: *const Pick,
    count: usize,
) -> u64 {
    // SAFETY: the lists are of `im_rc_make`, and the caller's slice has so many elements
    let (lists, picks) = unsafe { (&mut *lists, slice::from_raw_parts(picks, count)) };
    let get = |index: usize| lists[0].get(index).copied().map_or(0, u64::from);
    match work {
        0 => total(lists[0].iter()),
        1 => total(lists[0].iter().rev()),
        2 => (0..lists[0].len()).map(get).sum(),
        3 => picks.iter().map(|pick| get(pick[0] as usize)).sum(),
        4 => edits(lists, picks, |next, [_, value]| next.push_back(value)),
        5 => edits(lists, picks, |next, [index, value]| {
            next.set(index as usize, value);
        }),
        6 => edits(lists, picks, |next, _| {
            next.pop_back();
        }),
        7 => {
            lists.clear();
            0
        }
        _ => picks.iter().map(|_| compare(&lists[0], &lists[1])).sum(),
    }
}

/// The source is held during the edit and let go after it.
fn edit(list: &mut List, change: impl Fn(&mut List)) {
    let mut next = list.clone();
    change(&mut next);
    *list = next;
}

fn edits(lists: &mut [List], picks: &[Pick], change: impl Fn(&mut List, Pick)) -> u64 {
    for pick in picks {
        edit(&mut lists[0], |next| change(next, *pick));
    }
    0
}

fn total<'a>(elements: impl Iterator<Item = &'a u32>) -> u64 {
    elements.copied().map(u64::from).sum()
}

/// As an answer has it.
fn compare(one: &List, other: &List) -> u64 {
    match black_box(one).cmp(black_box(other)) {
        Ordering::Less => u64::from(u32::MAX),
        Ordering::Equal => 0,
        Ordering::Greater => 1,
    }
}
