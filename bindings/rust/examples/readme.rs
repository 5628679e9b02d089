use jumperloft::{DEFAULT_BITS, Party, Refusal, Slot, State, Walk};

fn main() -> Result<(), Refusal> {
    let mut state = State::new(256)?; // nodes
    let mut plug_in = state.party(Party::new(1)?); // speaks for party 1 alone
    let ([empty, one, two, ..], [walk, _]) = (Slot::ALL, Walk::ALL);

    let answers = plug_in
        .batch() // all of these in one call
        .new_vector(empty, DEFAULT_BITS)
        .push_back(empty, one, 7) // fills a slot; the source stays as it is
        .push_back(one, two, 9)
        .run()?;
    assert_eq!(answers[2].result()?.fresh, 1); // nodes that were free before

    let backwards: Vec<u32> = plug_in.values(two, walk)?.rev().collect();
    assert_eq!(backwards, [9, 7]);
    assert_eq!(plug_in.get(one, 1), Err(Refusal::NothingThere));
    Ok(())
}
