//! Every rule set judged; cores, cuts, MUST, MAY and the irrelevant rules as docs/FORMAT.md defines them.

use super::system::TransitionSystem;

/// Which sets hold: the verdict of each of the 2^R sets, by its number.
pub struct Verdicts {
    full_set: u16,
    holds: Vec<bool>,
}

impl Verdicts {
    pub fn of(system: &TransitionSystem) -> Verdicts {
        let full_set = system.full_set();
        Verdicts { full_set, holds: (0..=full_set).map(|set| system.holds(set)).collect() }
    }

    pub fn holds(&self, set: u16) -> bool {
        self.holds[usize::from(set)]
    }

    /// A core is a set that holds and has no proper part that holds.
    pub fn cores(&self) -> Vec<u16> {
        minimal(self.full_set, |set| self.holds(set))
    }

    /// A cut is a set whose removal from all R rules leaves a broken set, while no proper part of it does that.
    pub fn cuts(&self) -> Vec<u16> {
        minimal(self.full_set, |set| !self.holds(self.full_set & !set))
    }
}

/// MUST is what all cores have in common; if there is no core, it is set 0.
pub fn must(cores: &[u16]) -> u16 {
    cores.iter().copied().reduce(|common, core| common & core).unwrap_or(0)
}

/// MAY is what some core has, but for MUST.
pub fn may(cores: &[u16]) -> u16 {
    in_some(cores) & !must(cores)
}

/// The irrelevant rules are those in no core; if there is no core, all of them.
pub fn irrelevant(full_set: u16, cores: &[u16]) -> u16 {
    full_set & !in_some(cores)
}

fn in_some(sets: &[u16]) -> u16 {
    sets.iter().fold(0, |union, set| union | set)
}

/// The sets that are as asked while no proper part of them is: fewer rules first, then by set number.
pub fn minimal(full_set: u16, is_asked: impl Fn(u16) -> bool) -> Vec<u16> {
    let mut sets: Vec<u16> =
        (0..=full_set).filter(|set| is_asked(*set) && !proper_parts(*set).any(&is_asked)).collect();
    sets.sort_by_key(|set| (set.count_ones(), *set));
    sets
}

/// Every proper part of a set, the largest number first.
pub fn proper_parts(set: u16) -> impl Iterator<Item = u16> {
    let next_part = move |part: u16| (part > 0).then(|| (part - 1) & set);
    std::iter::successors(next_part(set), move |part| next_part(*part))
}
