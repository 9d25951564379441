//! Lists of any content, and a set to be looked up in them.

use super::generator::Random;
use crate::handed::Handed;
use crate::lent::Fill;
use crate::plain::answers::list_bytes;

/// How two lists stand to each other in memory.
#[derive(Clone, Copy, Debug, PartialEq, Eq)]
pub enum Sharing {
    /// Guards stand between them.
    Separate,
    /// The cut list begins where the core list ends.
    Adjacent,
    /// The cut list begins somewhere in the core list, at any byte of it.
    Overlapping,
    /// Both are the same bytes.
    Same,
}

/// A set, and the lists to look it up in.
#[derive(Debug)]
pub struct Question {
    pub set: u32,
    pub lists: Handed,
    pub sharing: Sharing,
}

/// One list in eleven has an odd count of bytes, and three sets in ten have rules from 16 on.
pub fn question(random: &mut Random, fill: Fill) -> Question {
    use Sharing::{Adjacent, Overlapping, Same, Separate};
    let sharing = random.pick(&[Separate, Separate, Separate, Adjacent, Overlapping, Same]);
    let (cores, cuts) = (list(random), list(random));
    let lists = match sharing {
        Separate => Handed::separate(&cores, &cuts, fill),
        Adjacent => {
            let bytes = [&cores[..], &cuts].concat();
            Handed::within(&bytes, 0..cores.len(), cores.len()..bytes.len(), fill)
        }
        Overlapping => {
            let start = random.below(cores.len() + 1);
            let end = start + cuts.len();
            let bytes = [&cores[..], &cuts].concat();
            Handed::within(&bytes[..end.max(cores.len())], 0..cores.len(), start..end, fill)
        }
        Same => Handed::within(&cores, 0..cores.len(), 0..cores.len(), fill),
    };
    let high = if random.percent(30) { random.bits() as u32 & 0xFFFF_0000 } else { 0 };
    Question { set: u32::from(random_set(random)) | high, lists, sharing }
}

/// The sets of a list have about as many rules each: with many of them a witness stands deep in the list or is missing.
fn list(random: &mut Random) -> Vec<u8> {
    let count = match random.below(1000) {
        0 => 40_000,
        1..=5 => 12_870,
        _ => random.pick(&[0, 1, 1, 2, 3, 5, 10, 30, 100, 300, 1000]),
    };
    let percent = random.pick(&RULES_PERCENT);
    let sets: Vec<u16> = (0..count).map(|_| set_with(random, percent)).collect();
    let mut bytes = list_bytes(&sets);
    if random.below(11) == 0 {
        bytes.push(random.pick(&[0, 1, 255]));
    }
    bytes
}

const RULES_PERCENT: [usize; 8] = [3, 10, 30, 50, 60, 70, 90, 97];

/// A set of 16 rules, with few of them or with many.
pub fn random_set(random: &mut Random) -> u16 {
    let percent = random.pick(&RULES_PERCENT);
    set_with(random, percent)
}

/// Each rule is in it with so many chances in a hundred.
fn set_with(random: &mut Random, percent: usize) -> u16 {
    (0..16).fold(0, |set, rule| set | u16::from(random.percent(percent)) << rule)
}
