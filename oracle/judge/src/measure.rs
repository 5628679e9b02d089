//! What the original's calls cost in nodes, at every length.

use archery::CountingK;
use formulas::{degree, LENGTH_LIMIT};
use original::Vector;

pub type List = Vector<u32, CountingK>;

#[derive(Clone, Copy, Debug, PartialEq, Eq)]
pub struct Cost {
    pub fresh: usize,
    pub charge: usize,
}

pub struct Call {
    pub result: List,
    pub cost: Cost,
}

/// A list of the original's, the only live one when `nodes` was read, and calls with it as their source.
pub struct Measured {
    pub list: List,
    pub nodes: usize,
    /// None at the length limit, which the original does not have.
    pub push: Option<Call>,
    pub sets: Vec<(u32, Call)>,
    pub drop: Option<Call>,
}

/// The list's element at an index; no two are equal.
pub fn element(index: u32) -> u32 {
    index.wrapping_mul(2_654_435_761)
}

/// What a set at an index puts there.
pub fn other_element(index: u32) -> u32 {
    !element(index)
}

/// First, middle and last; none for the empty list.
pub fn sampled_indices(length: u32) -> Vec<u32> {
    if length == 0 {
        return Vec::new();
    }
    vec![0, length / 2, length - 1]
}

/// Whether a length is recorded and has its shape walked: short, at the limit or near a power of the degree.
pub fn is_noted(bits: u32, length: u32) -> bool {
    const SHORT: u32 = 1_100;
    const NEAR: u32 = 2;
    let mut powers = (0..)
        .map(|k| degree(bits).pow(k))
        .take_while(|power| *power <= LENGTH_LIMIT);

    length <= SHORT
        || length + NEAR >= LENGTH_LIMIT
        || powers.any(|power| length.abs_diff(power) <= NEAR)
}

/// The source outlives the call and its result, so live nodes rise by the fresh ones alone.
pub fn measured(call: impl FnOnce() -> Option<List>) -> Option<Call> {
    let (allocated, live) = (CountingK::allocated(), CountingK::live());
    let result = call()?;
    let cost = Cost {
        fresh: CountingK::live() - live,
        charge: CountingK::allocated() - allocated,
    };
    Some(Call { result, cost })
}

/// Builds the list by pushes from 0 to the limit and shows it, measured, at each length.
pub fn at_every_length(bits: u32, mut see: impl FnMut(u32, &Measured)) {
    let mut list = List::new_with_bits(bits as u8);
    for length in 0..=LENGTH_LIMIT {
        let mut measured = measure(list, length);
        see(length, &measured);
        let Some(push) = measured.push.take() else {
            return;
        };
        list = push.result;
    }
}

fn measure(list: List, length: u32) -> Measured {
    let nodes = CountingK::live();
    let push = (length < LENGTH_LIMIT)
        .then(|| measured(|| Some(list.push_back(element(length)))))
        .flatten();
    let set = |index| {
        let call = measured(|| list.set(index as usize, other_element(index)))?;
        Some((index, call))
    };
    let sets = sampled_indices(length)
        .into_iter()
        .filter_map(set)
        .collect();
    let drop = measured(|| list.drop_last());

    Measured {
        list,
        nodes,
        push,
        sets,
        drop,
    }
}
