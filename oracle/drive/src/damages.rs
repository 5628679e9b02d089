//! The damages that `drive audit` does to a well-formed state.

use crate::damage::Campaign;
use crate::places::{Area, AREAS, LEGAL, WAYS};
use lent::{Lent, NODE_CELLS, SLOTS, VERSION_NUMBERS, WALKS, WALK_NUMBERS};

const BRANCH: u8 = 2;

/// A well-formed state and its name.
pub struct Base {
    pub lent: Lent,
    pub name: String,
}

impl Base {
    /// How many places are damaged; large states take longer.
    fn samples(&self) -> usize {
        if self.lent.nodes() <= 300 {
            4_000
        } else {
            800
        }
    }
}

impl Campaign {
    pub fn every_place(&mut self, base: &Base) {
        let (mut lent, mut same) = (base.lent.clone(), base.lent.clone());
        for area in AREAS {
            for at in 0..area.len(&base.lent) {
                for way in 0..WAYS {
                    self.single(base, (&mut lent, &mut same), area, at, way);
                }
            }
        }
    }

    pub fn sampled_places(&mut self, base: &Base) {
        let (mut lent, mut same) = (base.lent.clone(), base.lent.clone());
        for sample in 0..base.samples() {
            let area = AREAS[sample % AREAS.len()];
            let at = self.rng.below(area.len(&base.lent));
            let way = self.rng.below(WAYS);
            self.single(base, (&mut lent, &mut same), area, at, way);
        }
    }

    /// One number damaged, judged and put back. The two states are equal before and afterwards.
    fn single(
        &mut self,
        base: &Base,
        (lent, same): (&mut Lent, &mut Lent),
        area: Area,
        at: usize,
        way: usize,
    ) {
        let old = area.put(lent, at, 0);
        let value = area.value(&base.lent, at, old, way, &mut self.rng);
        area.put(lent, at, value);
        area.put(same, at, value);
        if *lent != base.lent {
            let kind = area.name(&base.lent, at);
            let what = || format!("{area:?}[{at}] from {old} to {value}, {}", base.name);
            self.judge(lent, same, &kind, what);
        }
        area.put(lent, at, old);
        area.put(same, at, old);
    }

    /// A root or a child in use becomes another node, and both counts are made right.
    pub fn relinked(&mut self, base: &Base) {
        let links = links(&base.lent);
        let times = if links.is_empty() {
            0
        } else {
            base.samples() / 12
        };
        for _ in 0..times {
            let mut lent = base.lent.clone();
            let (area, at) = links[self.rng.below(links.len())];
            let node = self.rng.below(lent.nodes());
            let old = area.put(&mut lent, at, node as u32) as usize;
            lent.counts[old] -= 1;
            lent.counts[node] += 1;
            let kind = format!("link in {area:?} changed with its counts");
            let what = format!("{area:?}[{at}] from {old} to {node}");
            self.judge_changed(base, lent, &kind, &what);
        }
    }

    /// A branch becomes of another kind, and the counts of its children are made right.
    pub fn rekinded(&mut self, base: &Base) {
        let branches = (0..base.lent.nodes()).filter(|n| base.lent.kinds[*n] == BRANCH);
        for n in branches.take(100) {
            for kind in [0, 1, 3, u8::MAX] {
                let mut lent = base.lent.clone();
                lent.kinds[n] = kind;
                for i in 0..usize::from(lent.used[n]) {
                    let child = lent.cells[NODE_CELLS * n + i];
                    lent.counts[child as usize] -= 1;
                }
                let what = format!("node {n} to kind {kind}");
                self.judge_changed(base, lent, "kind of branch changed with counts", &what);
            }
        }
    }

    /// Two numbers of an area swapped, and two to four damaged.
    pub fn several(&mut self, base: &Base) {
        for round in 0..base.samples() / 40 {
            let area = AREAS[round % AREAS.len()];
            let swapped = self.swapped(&base.lent, area);
            let kind = format!("two of {area:?} swapped");
            self.judge_changed(base, swapped, &kind, "");

            let mut lent = base.lent.clone();
            for _ in 0..2 + self.rng.below(3) {
                let area = AREAS[self.rng.below(AREAS.len())];
                let at = self.rng.below(area.len(&lent));
                let value = area.value(&lent, at, 0, LEGAL, &mut self.rng);
                area.put(&mut lent, at, value);
            }
            self.judge_changed(base, lent, "several damages", "");
        }
    }

    fn swapped(&mut self, base: &Lent, area: Area) -> Lent {
        let mut lent = base.clone();
        let len = area.len(base);
        let (a, b) = (self.rng.below(len), self.rng.below(len));
        let first = area.put(&mut lent, a, 0);
        area.put(&mut lent, a, first);
        let second = area.put(&mut lent, b, first);
        area.put(&mut lent, a, second);
        lent
    }

    /// Only a state that is not the base itself is one more.
    fn judge_changed(&mut self, base: &Base, mut lent: Lent, kind: &str, what: &str) {
        if lent != base.lent {
            self.judge_one(&mut lent, kind, &format!("{what}, {}", base.name));
        }
    }

    /// Slices that are too short or too long.
    pub fn lengths(&mut self, base: &Base) {
        for area in AREAS {
            let (len, unit) = (area.len(&base.lent), area.unit());
            for wrong in [len - unit, len + unit, 0, 2 * len] {
                let mut lent = base.lent.clone();
                area.resize(&mut lent, wrong);
                let what = format!("{area:?} of {wrong}, {}", base.name);
                if self.judge_one(&mut lent, "wrong slice length", &what) {
                    self.wrong.push(format!("{what}: accepted"));
                }
            }
        }
    }

    /// All numbers random, from few values or from all.
    pub fn random_bytes(&mut self, base: &Base) {
        for bound in [2, 3, 40, usize::MAX] {
            let mut lent = Lent::fresh(1 + self.rng.below(8));
            for area in AREAS {
                for at in 0..area.len(&lent) {
                    let value = self.rng.below(bound) as u32;
                    area.put(&mut lent, at, value);
                }
            }
            self.judge_changed(base, lent, "random bytes", "");
        }
    }
}

/// Where a well-formed state links nodes.
fn links(lent: &Lent) -> Vec<(Area, usize)> {
    let live = |n: &usize| lent.version(*n).live == 1;
    let open = |n: &usize| lent.walked_version(*n).live == 1;
    let branch = |n: &usize| lent.kinds[*n] == BRANCH;
    let cells = |n: usize| (0..usize::from(lent.used[n])).map(move |i| NODE_CELLS * n + i);

    let slots = (0..SLOTS)
        .filter(live)
        .map(|n| (Area::Versions, VERSION_NUMBERS * n + 1));
    let walks = (0..WALKS)
        .filter(open)
        .map(|n| (Area::WalkNumbers, WALK_NUMBERS * n + 1));
    let branches = (0..lent.nodes()).filter(branch).flat_map(cells);
    let cells = branches.map(|at| (Area::Cells, at));
    slots.chain(walks).chain(cells).collect()
}
