//! `drive audit`: damaged states, judged by our audit and by the plain one.

use crate::dag::shared_list;
use crate::damages::Base;
use crate::random_calls;
use crate::verdict::judge;
use formulas::{height, BITS, LENGTH_LIMIT};
use frames::rng::Rng;
use lent::{Lent, SLOTS, WALKS};
use std::collections::BTreeMap;

/// Pools up to this size are damaged at every place in every way.
const SMALL: usize = 24;
const MOST_NODES: usize = 300;
/// Around the sizes from which our audit lends itself more room.
const LARGE: [usize; 4] = [257, 4_096, 4_097, 9_000];
const CALLS_BETWEEN: usize = 4_000;
const WRONG_SHOWN: usize = 10;

/// How many states were judged, and how many of them were well-formed.
#[derive(Clone, Copy, Default)]
struct Count {
    judged: usize,
    well_formed: usize,
}

impl Count {
    fn add(&mut self, well_formed: bool) {
        self.judged += 1;
        self.well_formed += usize::from(well_formed);
    }
}

pub struct Campaign {
    pub rng: Rng,
    bases: usize,
    /// The largest height of a list, and the most live slots and open walks, of any base.
    richest: [u32; 3],
    total: Count,
    kinds: BTreeMap<String, Count>,
    pub wrong: Vec<String>,
}

/// Prints what was judged and answers whether the audits agreed on all of it.
pub fn campaign(states: usize, seed: u64) -> bool {
    println!("audit: seed {seed}, {states} states");
    let mut campaign = Campaign {
        rng: Rng::new(seed),
        bases: 0,
        richest: [0; 3],
        total: Count::default(),
        kinds: BTreeMap::new(),
        wrong: Vec::new(),
    };
    campaign.sizes();
    campaign.limit();
    while campaign.total.judged < states {
        campaign.base();
    }
    campaign.print();
    let agrees = campaign.wrong.is_empty();
    if !agrees {
        println!("audit: again by drive audit --states {states} --seed {seed}");
    }
    agrees
}

impl Campaign {
    fn print(&self) {
        for what in self.wrong.iter().take(WRONG_SHOWN) {
            println!("audit: {what}");
        }
        for (kind, count) in &self.kinds {
            let (judged, kept) = (count.judged, count.well_formed);
            if kept > 0 {
                println!("audit: {kind}: {judged} states, {kept} stayed well-formed");
            }
        }
        let [height, live, open] = self.richest;
        println!(
            "audit: heights to {height}, live slots to {live}, open walks to {open} before damage"
        );
        let (judged, kept) = (self.total.judged, self.total.well_formed);
        let (bases, kinds, wrong) = (self.bases, self.kinds.len(), self.wrong.len());
        println!("audit: {judged} states judged, made of {bases} well-formed ones, {kinds} kinds of damage, {kept} stayed well-formed, {wrong} disagreements");
    }

    /// Judges a state; `same` is equal to it, and must be so afterwards.
    pub fn judge(
        &mut self,
        lent: &mut Lent,
        same: &Lent,
        kind: &str,
        what: impl Fn() -> String,
    ) -> bool {
        let verdict = judge(lent);
        let well_formed = verdict.plain.is_ok();
        if !verdict.agrees() {
            self.wrong.push(format!("{kind}, {}: {verdict:?}", what()));
        }
        if *lent != *same {
            self.wrong.push(format!("{kind}, {}: written", what()));
        }
        if !self.kinds.contains_key(kind) {
            self.kinds.insert(kind.into(), Count::default());
        }
        self.total.add(well_formed);
        if let Some(count) = self.kinds.get_mut(kind) {
            count.add(well_formed);
        }
        well_formed
    }

    /// The same for a state that has no equal beside it.
    pub fn judge_one(&mut self, lent: &mut Lent, kind: &str, what: &str) -> bool {
        let same = lent.clone();
        self.judge(lent, &same, kind, || what.into())
    }

    /// Pools of every size around the limits.
    fn sizes(&mut self) {
        for (nodes, legal) in [(0, false), (1, true), (65_536, true), (65_537, false)] {
            let mut lent = Lent::fresh(nodes);
            let kind = format!("fresh state of {nodes} nodes");
            if self.judge_one(&mut lent, &kind, "") != legal {
                self.wrong.push(format!("{kind}: judged otherwise"));
            }
        }
    }

    /// Lists of few nodes are well-formed exactly up to the length limit.
    fn limit(&mut self) {
        for bits in BITS {
            let around = LENGTH_LIMIT - 3..=LENGTH_LIMIT + 3;
            for length in around.chain([2 * LENGTH_LIMIT, 1 << 20]).chain(0..=130) {
                let mut lent = shared_list(bits, length);
                let kind = "list whose equal parts are one node";
                let what = format!("bits {bits}, length {length}");
                let legal = length <= LENGTH_LIMIT;
                if self.judge_one(&mut lent, kind, &what) != legal {
                    self.wrong.push(format!("{kind}, {what}: judged otherwise"));
                }
            }
        }
    }

    fn pool(&mut self) -> usize {
        match self.bases % 32 {
            0 => LARGE[self.rng.below(LARGE.len())],
            odd if odd % 2 == 1 => 1 + self.rng.below(SMALL),
            _ => 1 + self.rng.below(MOST_NODES),
        }
    }

    /// By random calls, or by hand: a list of any length in few nodes.
    fn made(&mut self) -> Base {
        let number = self.bases;
        if self.bases % 16 == 7 {
            let bits = 1 + self.rng.below(5) as u32;
            let length = self.rng.below(LENGTH_LIMIT as usize + 1) as u32;
            let lent = shared_list(bits, length);
            let name = format!("state {number}, shared list of {length}, bits {bits}");
            return Base { lent, name };
        }
        let nodes = self.pool();
        let mut lent = Lent::formed(nodes);
        for _ in 0..self.rng.below(CALLS_BETWEEN) {
            random_calls::call(&mut lent, &mut self.rng);
        }
        let name = format!("state {number} of {nodes} nodes");
        Base { lent, name }
    }

    /// A well-formed state, damaged.
    fn base(&mut self) {
        self.bases += 1;
        let mut base = self.made();
        for (most, new) in self.richest.iter_mut().zip(richness(&base.lent)) {
            *most = new.max(*most);
        }
        if !self.judge_one(&mut base.lent, "no damage", &base.name) {
            let wrong = format!("{}: not well-formed before any damage", base.name);
            self.wrong.push(wrong);
        }
        if base.lent.nodes() <= SMALL {
            self.every_place(&base);
        } else {
            self.sampled_places(&base);
        }
        self.relinked(&base);
        self.rekinded(&base);
        self.several(&base);
        self.lengths(&base);
        self.random_bytes(&base);
    }
}

fn richness(lent: &Lent) -> [u32; 3] {
    let live = (0..SLOTS).map(|n| lent.version(n)).filter(|v| v.live == 1);
    let open = (0..WALKS).filter(|n| lent.walked_version(*n).live == 1);
    let heights = live.clone().map(|v| height(v.bits, v.length));
    [
        heights.max().unwrap_or(0),
        live.count() as u32,
        open.count() as u32,
    ]
}
