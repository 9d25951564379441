//! What the library says of a text that it accepts, with enough bytes lent, so that it can be held to what it says of another.

use crate::answer::{Blame, OneCore, Reached, Refused, Verdict};
use crate::calls;

/// Of some sets their traces and the states that they reach, of an order the core that it finds, of a log what is to blame, and
/// all that is asked without any of them.
#[derive(Debug, PartialEq, Eq)]
pub struct Everything {
    traces: Vec<Option<Vec<u8>>>,
    reached: Vec<(Reached, Vec<u8>)>,
    cores: Vec<u16>,
    cuts: Vec<u16>,
    must: u16,
    may: u16,
    irrelevant: u16,
    one_core: OneCore,
    /// Refused too where no state of the model can begin a log.
    blame: Result<Blame, Refused>,
}

impl Everything {
    pub fn of(text: &[u8], sets: &[u16], order: &[u8], log: &[u8]) -> Everything {
        Everything {
            traces: sets.iter().map(|set| trace(text, *set)).collect(),
            reached: sets.iter().map(|set| reached(text, *set)).collect(),
            cores: calls::listed(calls::cores, text).expect("an accepted model"),
            cuts: calls::listed(calls::cuts, text).expect("an accepted model"),
            must: calls::must(text).expect("an accepted model"),
            may: calls::may(text).expect("an accepted model"),
            irrelevant: calls::irrelevant(text).expect("an accepted model"),
            one_core: calls::one_core(text, order).expect("an accepted model"),
            blame: calls::blame(text, log),
        }
    }
}

/// The trace of a set; none if it holds.
pub fn trace(text: &[u8], set: u16) -> Option<Vec<u8>> {
    let mut lent = [0; 128];
    match calls::judge(text, u32::from(set), &mut lent).expect("an accepted model") {
        Verdict::Holds => None,
        Verdict::Broken { length } => Some(lent[..length].to_vec()),
    }
}

/// The pairs that are tried for a set, and its marks; 0 for each state that the model does not have.
pub fn reached(text: &[u8], set: u16) -> (Reached, Vec<u8>) {
    let mut marks = vec![0; calls::MARK_BYTES];
    let answer = calls::reached(text, u32::from(set), &mut marks);
    (answer.expect("an accepted model"), marks)
}
