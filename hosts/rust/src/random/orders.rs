//! Orders of the places of rules, and bytes that are none.

use super::generator::Random;
use crate::handed::Guarded;
use crate::lent::Fill;

/// Each place once, in any order.
pub fn order(random: &mut Random, rules: usize) -> Vec<u8> {
    let mut order: Vec<u8> = (0..rules as u8).collect();
    random.shuffle(&mut order);
    order
}

/// Why bytes are no order.
#[derive(Clone, Copy, Debug, PartialEq, Eq, PartialOrd, Ord)]
pub enum Fault {
    Empty,
    TooFew,
    TooMany,
    /// As many as there are rules, with a place twice and so another one missing.
    Twice,
    /// As many as there are rules, with R for one of the places.
    PlaceOfR,
    /// As many as there are rules, with more than R for one of the places.
    PlaceBeyondR,
}

impl Fault {
    pub const ALL: [Fault; 6] =
        [Fault::Empty, Fault::TooFew, Fault::TooMany, Fault::Twice, Fault::PlaceOfR, Fault::PlaceBeyondR];

    /// Whether so many rules can have it: of one byte none can be left out but the whole, nor can it be there twice.
    pub fn can_be(self, rules: usize) -> bool {
        rules > 1 || !matches!(self, Fault::TooFew | Fault::Twice)
    }
}

/// Bytes with this fault. Where they are too few, they are a part of an order, whose other bytes stand beside them in memory:
/// a call that reads on, or that does not look at the length, does not see the fault.
pub fn with_fault(random: &mut Random, rules: usize, fault: Fault, fill: Fill) -> Guarded {
    let mut order = order(random, rules);
    let at = random.below(rules);
    match fault {
        Fault::Empty => return Guarded::within(&order, 0..0, fill),
        Fault::TooFew => {
            let missing = random.between(1, rules - 1);
            let part = if random.percent(50) { 0..rules - missing } else { missing..rules };
            return Guarded::within(&order, part, fill);
        }
        Fault::TooMany => order.extend(more(random, rules)),
        Fault::Twice => order[at] = order[(at + random.between(1, rules - 1)) % rules],
        Fault::PlaceOfR => order[at] = rules as u8,
        Fault::PlaceBeyondR => order[at] = beyond(random, rules, order[at]),
    }
    Guarded::new(&order, fill)
}

/// One byte more, a few, or so many more that the count is the right one in 8 or 16 bits.
fn more(random: &mut Random, rules: usize) -> Vec<u8> {
    let count = match random.below(40) {
        0 => 65_536,
        1..=4 => 256,
        _ => random.pick(&[1, 1, 2, 5, 16]),
    };
    let byte = random.pick(&[0, rules as u8 - 1, rules as u8, 255]);
    vec![byte; count]
}

/// More than R; often a byte whose lower bits are the place that it stands for.
fn beyond(random: &mut Random, rules: usize, place: u8) -> u8 {
    let byte = random.pick(&[16, 32, 64, 128, 240]) | place;
    if usize::from(byte) > rules && random.percent(60) {
        return byte;
    }
    random.between(rules + 1, 255) as u8
}
