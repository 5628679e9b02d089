//! `drive edits`: new, set, push and drop at many lengths, and what each refuses.

use crate::edit_script::{self, Script};
use crate::exhaust;
use crate::part::Part;
use crate::subject::Subject;
use crate::transcript::Transcript;
use formulas::BITS;

pub struct Edits;

impl Part for Edits {
    const NAME: &'static str = "edits";
    const COLUMNS: &'static str = "bits, length, call, number, fresh, free nodes, checksum of the gets; then bits, length, call, free nodes before, number, fresh, free nodes after";

    fn run<S: Subject>(
        make: impl Fn(usize) -> S,
        mut done: impl FnMut(S),
        transcript: &mut Transcript,
    ) {
        for bits in BITS {
            let mut subject = make(edit_script::pool(bits));
            let mut script = Script {
                subject: &mut subject,
                transcript,
                bits,
            };
            script.run();
            done(subject);
        }
        for bits in BITS {
            for length in exhaust::lengths(bits) {
                let mut subject = make(exhaust::pool(bits, length));
                exhaust::run(&mut subject, transcript, bits, length);
                done(subject);
            }
        }
    }
}
