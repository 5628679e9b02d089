//! Document 01's "Shape of a version" and "What a call costs in nodes", written down from its text alone.

use std::ops::RangeInclusive;

pub const LENGTH_LIMIT: u32 = 32_768;
pub const BITS: RangeInclusive<u32> = 1..=5;

pub fn degree(bits: u32) -> u32 {
    2u32.pow(bits)
}

pub fn bits_to_write(number: u32) -> u32 {
    u32::BITS - number.leading_zeros()
}

pub fn height(bits: u32, length: u32) -> u32 {
    if length <= 1 {
        return 0;
    }
    let c = bits_to_write(length - 1);
    c / bits + u32::from(!c.is_multiple_of(bits)) - 1
}

pub fn bucket(bits: u32, index: u32, height: u32) -> u32 {
    (index >> (height * bits)) % degree(bits)
}

pub fn root_max_capacity(bits: u32, length: u32) -> u32 {
    degree(bits).pow(height(bits, length) + 1)
}

pub fn is_root_full(bits: u32, length: u32) -> bool {
    length == root_max_capacity(bits, length)
}

/// Used cells of all nodes of a level; level 0 is the leaves.
pub fn used_at_level(bits: u32, length: u32, level: u32) -> u32 {
    length.div_ceil(degree(bits).pow(level))
}

/// The empty list is one empty leaf.
pub fn nodes_at_level(bits: u32, length: u32, level: u32) -> u32 {
    if length == 0 {
        return 1;
    }
    length.div_ceil(degree(bits).pow(level + 1))
}

pub fn nodes(bits: u32, length: u32) -> u32 {
    (0..=height(bits, length))
        .map(|level| nodes_at_level(bits, length, level))
        .sum()
}

pub const NEW_FRESH: u32 = 1;
pub const NEW_CHARGE: u32 = 1;
pub const CLONE_FRESH: u32 = 0;
pub const CLONE_CHARGE: u32 = 0;

pub fn push_fresh(bits: u32, length: u32) -> u32 {
    height(bits, length + 1) + 1
}

pub fn push_charge(bits: u32, length: u32) -> u32 {
    push_fresh(bits, length)
}

pub fn set_fresh(bits: u32, length: u32) -> u32 {
    height(bits, length) + 1
}

pub fn set_charge(bits: u32, length: u32) -> u32 {
    set_fresh(bits, length)
}

/// For lengths from 1.
pub fn drop_fresh(bits: u32, length: u32) -> u32 {
    let h = height(bits, length);
    let d = degree(bits);
    if length == 1 {
        return 1;
    }
    if h >= 1 && length - 1 == d.pow(h) {
        return 0;
    }
    let kept = (0..=h).filter(|k| !(length - 1).is_multiple_of(d.pow(k + 1)));
    kept.count() as u32
}

/// For lengths from 1.
pub fn drop_charge(bits: u32, length: u32) -> u32 {
    height(bits, length) + 1
}

#[cfg(test)]
mod tests;
