//! A layout program that lends a state to its plug-ins: one keeps the list of fonts, another shows it.

use std::ops::Range;

use jumperloft::{
    Answer, DEFAULT_BITS, Memory, Party, PartyHandle, Refusal, Slot, StateRef, Version, Walk,
};

const NODES: usize = 256;
const FONTS: [&str; 4] = ["Bembo", "Garamond", "Jenson", "Sabon"];

/// The slot in which each plug-in has the list that is shown.
const SHOWN: Slot = Slot::ALL[0];
/// The slots in which a longer list is made.
const MAKING: [Slot; 2] = [Slot::ALL[1], Slot::ALL[2]];

/// The plug-in that keeps the list: fonts' numbers are added in one call, then the longer list takes the place of the one before.
fn add_fonts(keeper: &mut PartyHandle<'_>, fonts: Range<u32>) -> Result<(), Refusal> {
    let [mut from, mut to] = MAKING;
    let mut batch = keeper.batch();
    batch.clone_slot(SHOWN, from);
    for font in fonts {
        batch.push_back(from, to, font).release(from);
        (from, to) = (to, from);
    }
    // a refused frame doesn't stop the next ones, so what is shown is let go only now
    all_done(&batch.run()?)?;
    let mut batch = keeper.batch();
    batch.release(SHOWN).clone_slot(from, SHOWN).release(from);
    all_done(&batch.run()?)
}

fn all_done(answers: &[Answer]) -> Result<(), Refusal> {
    answers
        .iter()
        .try_for_each(|answer| answer.result().map(drop))
}

/// The plug-in that shows the list which it was handed.
fn show(menu: &mut PartyHandle<'_>) -> Result<(), Refusal> {
    let fonts = menu.values(SHOWN, Walk::ALL[0])?;
    println!("{} fonts:", fonts.len());
    for font in fonts {
        println!("  {}", FONTS[font as usize]);
    }
    Ok(())
}

fn main() -> Result<(), Refusal> {
    let memory = Memory {
        kinds: &mut [0; NODES],
        used: &mut [0; NODES],
        counts: &mut [0; NODES],
        cells: &mut [0; NODES * Memory::NODE_CELLS],
        order: &mut [0; NODES],
        versions: &mut [Version::default(); Memory::VERSIONS],
        walk_numbers: &mut [0; Memory::WALK_NUMBERS],
        walk_nodes: &mut [0; Memory::WALK_LEVELS],
        walk_indices: &mut [0; Memory::WALK_LEVELS],
    };
    let mut state = StateRef::form(memory)?;
    let [_, keeper, menu, ..] = Party::ALL;

    state.party(keeper).new_vector(SHOWN, DEFAULT_BITS)?;
    add_fonts(&mut state.party(keeper), 0..3)?;
    state.host().hand_over(keeper, SHOWN, menu, SHOWN)?;

    // what the menu was handed stays as it is, whatever the keeper adds
    add_fonts(&mut state.party(keeper), 3..4)?;
    show(&mut state.party(menu))?;
    println!("The keeper has {}.", state.party(keeper).len(SHOWN)?);
    println!("{} of {NODES} nodes are free.", state.host().free_nodes()?);
    Ok(())
}
