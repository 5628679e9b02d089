//! Rows of answers. Two subjects that run one script must write the same rows; a file keeps some of them and a checksum of all.

use frames::Answer;

/// The 64-bit FNV-1a checksum.
#[derive(Clone, Copy)]
pub struct Fnv1a(pub u64);

impl Default for Fnv1a {
    fn default() -> Self {
        Fnv1a(0xcbf2_9ce4_8422_2325)
    }
}

impl Fnv1a {
    pub fn feed(&mut self, bytes: &[u8]) {
        for byte in bytes {
            self.0 = (self.0 ^ u64::from(*byte)).wrapping_mul(0x0000_0100_0000_01b3);
        }
    }

    pub fn feed_answer(&mut self, answer: &Answer) {
        self.feed(&[answer.number]);
        self.feed(&answer.value.to_be_bytes());
    }
}

#[derive(Default)]
pub struct Transcript {
    rows: Vec<(bool, String)>,
}

impl Transcript {
    /// A row that is `noted` stands in the recorded file.
    pub fn row(&mut self, noted: bool, row: String) {
        self.rows.push((noted, row));
    }

    pub fn len(&self) -> usize {
        self.rows.len()
    }

    /// The file: how it was made, the noted rows, and the checksum of all.
    pub fn text(&self, header: &str) -> String {
        let mut text = format!("# {header}\n");
        let mut checksum = Fnv1a::default();
        for (noted, row) in &self.rows {
            checksum.feed(row.as_bytes());
            checksum.feed(b"\n");
            if *noted {
                text.push_str(row);
                text.push('\n');
            }
        }
        let rows = self.len();
        text.push_str(&format!("fnv1a64 of {rows} rows: {:016x}\n", checksum.0));
        text
    }

    /// The first rows that differ, at most five of them, as what is wrong.
    #[cfg(feature = "original")]
    pub fn differences(&self, judge: &Transcript) -> Vec<String> {
        let ours = self.rows.iter().map(|(_, row)| row.as_str());
        let theirs = judge.rows.iter().map(|(_, row)| row.as_str());
        different_lines(ours, theirs)
    }
}

pub fn different_lines<'a>(
    ours: impl Iterator<Item = &'a str>,
    judge: impl Iterator<Item = &'a str>,
) -> Vec<String> {
    const SHOWN: usize = 5;
    let ours = ours.map(Some).chain(std::iter::repeat(None));
    let judge = judge.map(Some).chain(std::iter::repeat(None));
    let pairs = ours
        .zip(judge)
        .take_while(|pair| *pair != (None, None))
        .filter(|(ours, judge)| ours != judge);
    let told = pairs.map(|(ours, judge)| {
        let (ours, judge) = (ours.unwrap_or("nothing"), judge.unwrap_or("nothing"));
        format!("ours: {ours}; the original: {judge}")
    });
    told.take(SHOWN).collect()
}

#[cfg(test)]
mod tests {
    use super::*;

    #[test]
    fn the_checksum_is_fnv_1a() {
        let mut checksum = Fnv1a::default();
        checksum.feed(b"foobar");
        assert_eq!(checksum.0, 0x8594_4171_f739_67e8);
    }

    #[test]
    fn a_missing_row_differs() {
        let ours = different_lines(["a"].into_iter(), ["a", "b"].into_iter());
        assert_eq!(ours, ["ours: nothing; the original: b"]);
    }
}
