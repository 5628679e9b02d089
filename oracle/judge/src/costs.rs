//! `judge costs`: the formulas against the original, at every length and bits.

use crate::measure::{
    at_every_length, element, is_noted, measured, other_element, sampled_indices, Call, List,
    Measured,
};
use crate::shape::compare_shape;
use crate::tally::Tally;
use archery::CountingK;
use formulas::*;
use original::vector::probe;

/// Prints what was compared and answers whether all of it agreed.
pub fn judge_costs() -> bool {
    let mut tally = Tally::default();
    for bits in BITS {
        let before = tally.comparisons;
        let lengths = judge_bits(&mut tally, bits);
        let comparisons = tally.comparisons - before;
        println!("bits {bits}: {lengths} lengths, {comparisons} comparisons");
    }
    let Tally {
        comparisons,
        mismatches,
        ..
    } = tally;
    println!("oracle: {comparisons} comparisons, {mismatches} mismatches");
    mismatches == 0
}

fn judge_bits(tally: &mut Tally, bits: u32) -> usize {
    (tally.bits, tally.length) = (bits, 0);
    tally.compare("degree", probe::degree(bits as u8), degree(bits));
    compare_new(tally);

    let mut lengths = 0;
    at_every_length(bits, |length, measured| {
        lengths += 1;
        tally.length = length;
        compare_numbers(tally, measured);
        compare_elements(tally, &measured.list, length, None);
        compare_push(tally, measured);
        compare_sets(tally, measured);
        compare_drop(tally, measured);
        compare_clone(tally, &measured.list);
    });
    tally.compare("nodes live after the last release", CountingK::live(), 0);
    lengths
}

fn compare_numbers(tally: &mut Tally, measured: &Measured) {
    let (bits, length, list) = (tally.bits, tally.length, &measured.list);
    let height = height(bits, length);

    tally.compare("length", list.len(), length);
    tally.compare("height", probe::height(list), height);
    tally.compare(
        "root capacity",
        probe::root_max_capacity(list),
        root_max_capacity(bits, length),
    );
    tally.compare_truth(
        "root is full",
        probe::is_root_full(list),
        is_root_full(bits, length),
    );
    tally.compare("nodes", measured.nodes, nodes(bits, length));
    for index in sampled_indices(length).into_iter().chain([length]) {
        for level in 0..=height {
            let original = probe::bucket(bits as u8, index as usize, level as usize);
            tally.compare("bucket", original, bucket(bits, index, level));
        }
    }
}

/// `changed` is the one index, if any, that holds its other element.
fn compare_elements(tally: &mut Tally, list: &List, length: u32, changed: Option<u32>) {
    for index in sampled_indices(length) {
        let expected = if changed == Some(index) {
            other_element(index)
        } else {
            element(index)
        };
        let original = list.get(index as usize);
        tally.compare_truth("get is refused", original.is_none(), false);
        tally.compare(
            "element",
            original.map_or(0, |value| *value as usize),
            expected,
        );
    }
    tally.compare_truth(
        "get at length is refused",
        list.get(length as usize).is_none(),
        true,
    );
}

fn compare_cost(tally: &mut Tally, name: &str, call: &Call, fresh: u32, charge: u32) {
    tally.compare(&format!("{name} fresh"), call.cost.fresh, fresh);
    tally.compare(&format!("{name} charge"), call.cost.charge, charge);
}

fn compare_new(tally: &mut Tally) {
    let bits = tally.bits;
    if let Some(new) = measured(|| Some(List::new_with_bits(bits as u8))) {
        compare_cost(tally, "new", &new, NEW_FRESH, NEW_CHARGE);
        compare_shape(tally, &new.result, 0);
    }
}

fn compare_clone(tally: &mut Tally, list: &List) {
    if let Some(clone) = measured(|| Some(list.clone())) {
        compare_cost(tally, "clone", &clone, CLONE_FRESH, CLONE_CHARGE);
    }
}

fn compare_push(tally: &mut Tally, measured: &Measured) {
    let (bits, length) = (tally.bits, tally.length);
    if let Some(push) = &measured.push {
        compare_cost(
            tally,
            "push",
            push,
            push_fresh(bits, length),
            push_charge(bits, length),
        );
        compare_result(tally, &push.result, length + 1);
    }
}

fn compare_drop(tally: &mut Tally, measured: &Measured) {
    let (bits, length) = (tally.bits, tally.length);
    tally.compare_truth("drop is refused", measured.drop.is_none(), length == 0);
    if let Some(drop) = &measured.drop {
        compare_cost(
            tally,
            "drop",
            drop,
            drop_fresh(bits, length),
            drop_charge(bits, length),
        );
        compare_result(tally, &drop.result, length - 1);
    }
}

fn compare_result(tally: &mut Tally, result: &List, length: u32) {
    tally.compare("length of the result", result.len(), length);
    compare_elements(tally, result, length, None);
    if is_noted(tally.bits, length) {
        compare_shape(tally, result, length);
    }
}

fn compare_sets(tally: &mut Tally, measured: &Measured) {
    let (bits, length) = (tally.bits, tally.length);
    tally.compare(
        "sets done",
        measured.sets.len(),
        if length == 0 { 0 } else { 3 },
    );
    let beyond = measured.list.set(length as usize, 0);
    tally.compare_truth("set at length is refused", beyond.is_none(), true);
    for (index, set) in &measured.sets {
        compare_cost(
            tally,
            "set",
            set,
            set_fresh(bits, length),
            set_charge(bits, length),
        );
        compare_elements(tally, &set.result, length, Some(*index));
    }
}
