//! What the crate is linked into keeps the library's names to itself, whatever its link line.

use std::env;
use std::process::Command;

const NAMES: [&str; 3] = ["jumperloft1_batch", "jumperloft1_form", "jumperloft1_sizes"];

#[test]
fn the_library_s_names_are_local_to_this_program() {
    let listed = Command::new("nm")
        .arg(env::current_exe().unwrap())
        .output()
        .unwrap();
    let listed = String::from_utf8(listed.stdout).unwrap();
    let mut found: Vec<(&str, &str)> = listed
        .lines()
        .filter_map(|line| line.rsplit_once(' '))
        .filter(|(_, name)| NAMES.contains(name))
        .filter_map(|(rest, name)| Some((name, rest.rsplit_once(' ')?.1)))
        .collect();
    found.sort_unstable();
    // a capital T is a name that others can be bound to
    assert_eq!(found, NAMES.map(|name| (name, "t")));
}
