//! What the steps of a comparison show of the prediction of linked faces: pairs, refusals, and what is not read.

use crate::calls::Outcome;
use crate::cases;
use crate::entry::{Entry, Part};
use crate::exact;
use crate::lent::Lent;
use crate::linked::{links, own, owner, pairs, predicted, Link, RIGHT};

#[derive(Default)]
pub struct Links {
    /// Accepted steps with links.
    accepted: u64,
    /// Those of them with a wall flux at a linked face that is a NaN, or infinite.
    walls: [u64; 2],
    /// Linked pairs in them: those whose two own predictions are opposite bit for bit, opposite but for a zero's sign,
    /// other ones.
    pairs: [u64; 3],
    /// Pairs with equal coefficients; pairs of one cell; pairs whose lower face's flux is a zero.
    equal: u64,
    alone: u64,
    zeros: u64,
    /// Linked faces with a fixed value, zero gradient, no condition; and those that no chain names.
    conditions: [u64; 3],
    unnamed: u64,
    refused: Refused,
}

/// Steps that 9 of the prediction of a linked face refuses.
#[derive(Default)]
struct Refused {
    /// At the lower face of a pair, at the higher.
    at: [u64; 2],
    /// Those of the former whose peer's prediction is not finite either; those with several such pairs.
    both: u64,
    several: u64,
    /// Those that 9 or 10 of the correction, or 12, would refuse with zeros for what is not finite.
    behind: [u64; 3],
}

impl Links {
    pub fn count(&mut self, entry: Entry, lent: &Lent, expected: &Outcome) {
        if entry != Entry::Step {
            return;
        }
        match expected {
            Outcome::Accepted(handed) => {
                let mut whole = lent.clone();
                for part in [Part::Gradient, Part::Coefficients, Part::Predicted] {
                    whole.slices.take(part, handed);
                }
                self.count_accepted(&whole);
            }
            Outcome::Refused(refusal) if refusal.number == 9 => {
                if let Ok(begun) = cases::begun(lent) {
                    if predicted(&RIGHT, &begun) == Err(refusal.index) {
                        self.refused.count(begun, refusal.index);
                    }
                }
            }
            Outcome::Refused(_) => {}
        }
    }

    /// An accepted step, its outputs where they are lent.
    fn count_accepted(&mut self, whole: &Lent) {
        let slices = &whole.slices;
        let linked = links(whole);
        if linked.is_empty() {
            return;
        }
        self.accepted += 1;
        let walls = || linked.iter().map(|link| slices.walls[link.face]);
        self.walls[0] += u64::from(walls().any(f64::is_nan));
        self.walls[1] += u64::from(walls().any(f64::is_infinite));
        for Link { face, peer } in pairs(whole) {
            let lower = slices.predicted[face];
            let higher = own(
                &RIGHT,
                whole,
                Link {
                    face: peer,
                    peer: face,
                },
            );
            let kind = match higher == -lower {
                true => usize::from(higher.to_bits() != (-lower).to_bits()),
                false => 2,
            };
            self.pairs[kind] += 1;
            let equal = exact::equal_peer(whole, &slices.coefficients, face);
            self.equal += u64::from(equal.is_some());
            self.alone += u64::from(owner(whole, face) == owner(whole, peer));
            self.zeros += u64::from(lower == 0.0);
        }
        let mut is_named = vec![false; whole.counts.faces];
        for heads in slices.heads.chunks_exact(2) {
            for face in Lent::chain(&slices.facing, heads[0]) {
                is_named[face] = true;
            }
        }
        for Link { face, .. } in linked {
            // a fixed value, zero gradient, none
            self.conditions[(slices.codes[2 * face] + 2) % 3] += 1;
            self.unnamed += u64::from(!is_named[face]);
        }
    }

    pub fn print(&self, entry: Entry) {
        let name = entry.name();
        let [nan, infinite] = self.walls;
        let [exact, zero, other] = self.pairs;
        println!(
            "{name}: {} accepted with links, {nan} of them with a NaN for a wall flux at a linked face, {infinite} with an \
             infinite one; {} linked pairs, whose own predictions are opposite bit for bit in {exact}, but for a zero's \
             sign in {zero}, not in {other}; {} with equal coefficients, {} of a cell with itself, {} predicted as a zero",
            self.accepted,
            self.pairs.iter().sum::<u64>(),
            self.equal,
            self.alone,
            self.zeros
        );
        let [fixed, gradient, absent] = self.conditions;
        println!(
            "{name}: accepted with linked faces with a fixed value {fixed}, zero gradient {gradient}, no condition \
             {absent}; {} that no chain names",
            self.unnamed
        );
        let refused = &self.refused;
        let [lower, higher] = refused.at;
        let [nine, ten, twelve] = refused.behind;
        println!(
            "{name}: {} refused by 9 of the prediction of a linked face, {lower} at the lower of a pair ({} with the \
             higher not finite either), {higher} at the higher, {} with several such pairs; behind it 9 {nine}, 10 {ten}, \
             12 {twelve}",
            lower + higher,
            refused.both,
            refused.several
        );
    }
}

impl Refused {
    /// What the step has before that prediction, and the face that 9 names.
    fn count(&mut self, mut begun: Lent, face: usize) {
        let is_bad = |lent: &Lent, link: Link| !own(&RIGHT, lent, link).is_finite();
        let bad: Vec<Link> = links(&begun)
            .into_iter()
            .filter(|&link| is_bad(&begun, link))
            .collect();
        let named = bad[0];
        self.at[usize::from(face > named.peer)] += 1;
        let is_pair = |link: &Link| link.face == named.peer;
        self.both += u64::from(bad.iter().any(is_pair));
        let others = |link: &Link| link.face != named.face && link.face != named.peer;
        self.several += u64::from(bad.iter().any(others));
        for link in links(&begun) {
            let own = own(&RIGHT, &begun, link);
            begun.slices.predicted[link.face] = if own.is_finite() { own } else { 0.0 };
        }
        if let Outcome::Refused(refusal) = cases::finished(&begun) {
            let kind = [9, 10, 12].iter().position(|&kind| kind == refusal.number);
            self.behind[kind.expect("what comes after it")] += 1;
        }
    }
}
