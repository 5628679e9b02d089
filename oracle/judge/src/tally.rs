//! Counts comparisons and prints the first mismatches.

const MISMATCHES_PRINTED: usize = 20;

#[derive(Default)]
pub struct Tally {
    pub bits: u32,
    pub length: u32,
    pub comparisons: usize,
    pub mismatches: usize,
}

impl Tally {
    /// One comparison, at the tally's present bits and length.
    pub fn compare(&mut self, what: &str, original: usize, formula: u32) {
        self.comparisons += 1;
        if original == formula as usize {
            return;
        }
        self.mismatches += 1;
        if self.mismatches <= MISMATCHES_PRINTED {
            let Tally { bits, length, .. } = self;
            println!(
                "bits {bits}, length {length}, {what}: original {original}, formula {formula}"
            );
        }
    }

    pub fn compare_truth(&mut self, what: &str, original: bool, formula: bool) {
        self.compare(what, usize::from(original), u32::from(formula));
    }
}
