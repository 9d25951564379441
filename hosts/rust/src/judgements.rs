//! How many judgements the library makes for a list: its way of going over the sets, counted on the plain verdicts.
//!
//! A set of which nothing is known yet is a seed, and the smallest number comes first. A seed that holds is a core, since
//! its parts have smaller numbers and are known. A broken one gets the other rules one by one while it stays broken; a set
//! of which something is known need not be judged then, for it holds. Then every set above the core, or below the broken
//! set, is known.

use crate::plain::sets::Verdicts;

/// The judgements of one list call; both lists take the same.
pub fn of_a_list(verdicts: &Verdicts, rules: usize) -> usize {
    let full_set = u16::MAX >> (16 - rules);
    let mut known = vec![false; usize::from(full_set) + 1];
    let mut judgements = 0;
    for seed in 0..=full_set {
        if !known[usize::from(seed)] {
            judgements += 1 + settle(verdicts, rules, seed, &mut known);
        }
    }
    judgements
}

/// Adds rules to a broken seed one by one, and marks what is known then. Gives the judgements made beside the seed's own.
fn settle(verdicts: &Verdicts, rules: usize, seed: u16, known: &mut [bool]) -> usize {
    let holds = verdicts.holds(seed);
    let mut set = seed;
    let mut judgements = 0;
    if !holds {
        for rule in 0..rules {
            let more = set | 1 << rule;
            if more != set && !known[usize::from(more)] {
                judgements += 1;
                if !verdicts.holds(more) {
                    set = more;
                }
            }
        }
    }
    for (other, is_known) in known.iter_mut().enumerate() {
        let other = other as u16;
        *is_known |= if holds { other & set == set } else { other | set == set };
    }
    judgements
}
