//! How long a thousand pushes take a party's handle at 65,536 nodes, each with the release of the list before: by a call for each
//! frame, and by one batch. `cargo run --release --offline --example pushes`

use std::time::Instant;

use jumperloft::{DEFAULT_BITS, Memory, Party, PartyHandle, Refusal, Slot, State};

const PUSHES: u32 = 1_000;

fn by_calls(plug_in: &mut PartyHandle<'_>) -> Result<(), Refusal> {
    let [mut from, mut to, ..] = Slot::ALL;
    for value in 0..PUSHES {
        plug_in.push_back(from, to, value)?;
        plug_in.release(from)?;
        (from, to) = (to, from);
    }
    Ok(())
}

fn by_one_batch(plug_in: &mut PartyHandle<'_>) -> Result<(), Refusal> {
    let [mut from, mut to, ..] = Slot::ALL;
    let mut batch = plug_in.batch();
    for value in 0..PUSHES {
        batch.push_back(from, to, value).release(from);
        (from, to) = (to, from);
    }
    let answers = batch.run()?;
    answers
        .iter()
        .try_for_each(|answer| answer.result().map(drop))
}

fn main() -> Result<(), Refusal> {
    let mut state = State::new(Memory::MOST_NODES)?;
    let mut plug_in = state.party(Party::new(1)?);
    let [list, ..] = Slot::ALL;
    let ways = [by_calls, by_one_batch];
    for (name, pushes) in ["a call for each frame", "one batch"].iter().zip(ways) {
        plug_in.new_vector(list, DEFAULT_BITS)?;
        let start = Instant::now();
        pushes(&mut plug_in)?;
        let taken = start.elapsed().as_secs_f64() * 1e3;
        println!("{PUSHES} pushes and releases, {name}: {taken:.1} ms");
        assert_eq!(plug_in.len(list)?, PUSHES);
        plug_in.release(list)?;
    }
    Ok(())
}
