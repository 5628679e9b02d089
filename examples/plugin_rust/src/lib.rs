//! The plug-in of `plugin.c`, in Rust: it edits what the host handed over to its party, and exports one function.

use jumperloft::{LentState, Party, Refusal, Slot, StateRef};

/// Answers 0, or the first number that isn't.
///
/// # Safety
///
/// As [`StateRef::at`] asks, for the time of this call.
#[no_mangle]
pub unsafe extern "C" fn plugin_edit(state: *const LentState<'_>, party: u8) -> u32 {
    // SAFETY: the host lends the state for this call, in which nobody else uses it.
    let state = unsafe { StateRef::at(state) };
    let edited = state.and_then(|state| edit(state, party));
    edited.map_or_else(u32::from, |()| 0)
}

/// Takes the list in slot 0; leaves a clone of it in slot 1, its second element set in slot 2, two more pushed in slot 4.
fn edit(mut state: StateRef<'_>, party: u8) -> Result<(), Refusal> {
    let mut plug_in = state.party(Party::new(party)?);
    let [list, copy, set, pushed, result, ..] = Slot::ALL;
    let answers = plug_in
        .batch()
        .clone_slot(list, copy)
        .set(copy, set, 1, 500)
        .push_back(set, pushed, 700)
        .push_back(pushed, result, 900)
        .release(pushed)
        .run()?;
    answers
        .iter()
        .try_for_each(|answer| answer.result().map(drop))
}
