//! The snippet of the READMEs runs, and stands in them as it is here.

include!("../../examples/readme.rs");

const SNIPPET: &str = include_str!("../../examples/readme.rs");

#[test]
fn the_snippet_runs() {
    assert_eq!(main(), Ok(()));
}

#[test]
fn the_readmes_have_the_same_text() {
    for readme in ["README.md", "../../README.md"] {
        // a crate that was copied out of the repository has no README above it
        let Ok(text) = std::fs::read_to_string(readme) else {
            continue;
        };
        let blocks = text
            .split("```rust\n")
            .skip(1)
            .filter_map(|rest| rest.split("```").next());
        assert_eq!(Vec::from_iter(blocks), [SNIPPET], "{readme}");
    }
}
