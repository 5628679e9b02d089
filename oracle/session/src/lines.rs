//! `session answer`: the program's answers to any input.

use crate::state::{State, POOL};
use frames::{Answer, Frame};

/// The lines of an input with their line feeds, and a last piece without one unless it is empty.
pub fn lines(input: &[u8]) -> impl Iterator<Item = &[u8]> {
    input.split_inclusive(|byte| *byte == b'\n')
}

/// Each line's frame, if it is one, and the answer to it, over a fresh state; `state` is shown as it is after.
pub fn run(input: &[u8], mut see: impl FnMut(Option<Frame>, Answer, &State)) {
    let mut state = State::fresh(POOL);
    for line in lines(input) {
        let frame = Frame::of_line(line);
        let answer = match &frame {
            Some(frame) => state.serve(frame),
            None => Answer::OF_NO_FRAME,
        };
        see(frame, answer, &state);
    }
}

pub fn answers(input: &[u8]) -> String {
    let mut answers = String::new();
    run(input, |_, answer, _| answers.push_str(&answer.line()));
    answers
}

#[cfg(test)]
mod tests {
    use super::*;

    const EXAMPLE: &str = "\
010000000000000500000000
010600010000000000000007
010401000000000000000000
010401000000000100000000
020301000000000000000000
010800000000000000000000
010A00000000000000000000
000D00000000000000000000
";
    const ITS_ANSWERS: &str = "\
000100000000
000100000000
000000000007
080000000000
050000000000
000000000000
080000000000
0000000000FE
";

    #[test]
    fn the_example_of_document_01() {
        assert_eq!(answers(EXAMPLE.as_bytes()), ITS_ANSWERS);
    }

    #[test]
    fn empty_input_gives_no_output() {
        assert_eq!(answers(b""), "");
    }

    #[test]
    fn a_line_that_is_no_frame_answers_14() {
        const NO_FRAME: &str = "0E0000000000\n";
        assert_eq!(answers(b"\n"), NO_FRAME);
        assert_eq!(answers(b"\n\n"), NO_FRAME.repeat(2));
        assert_eq!(answers(b"\r\n0"), NO_FRAME.repeat(2));
        assert_eq!(answers(b"000D00000000000000000000"), NO_FRAME);
        assert_eq!(
            answers(b"000D00000000000000000000\n000D"),
            format!("000000000100\n{NO_FRAME}")
        );
    }
}
