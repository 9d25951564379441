//! One core, in the caller's order of preference.

use super::system::TransitionSystem;
use crate::answer::{OneCore, Reason, Refused};

/// Judges the full set. If it holds, each rule in the order is dropped when the remaining set still holds.
pub fn one_core(system: &TransitionSystem, order: &[u8]) -> Result<OneCore, Refused> {
    if !is_order(order, system.rules) {
        return Err(Refused::new(Reason::NotAnOrder, 0));
    }
    let mut judgements = 0;
    let mut judged_to_hold = |set| {
        judgements += 1;
        system.holds(set)
    };
    let mut remaining = system.full_set();
    if !judged_to_hold(remaining) {
        return Ok(OneCore::NoCore { judgements });
    }
    for place in order {
        let without = remaining & !(1 << place);
        if judged_to_hold(without) {
            remaining = without;
        }
    }
    Ok(OneCore::Found { core: remaining, judgements })
}

/// Whether it is R bytes that have each place from 0 to R - 1 exactly once.
fn is_order(order: &[u8], rules: usize) -> bool {
    let times = |place| order.iter().filter(|byte| usize::from(**byte) == place).count();
    order.len() == rules && (0..rules).all(|place| times(place) == 1)
}

/// An order that finds this core: the rules outside it first.
pub fn order_for(core: u16, rules: usize) -> Vec<u8> {
    let is_inside = |place: &u8| core >> place & 1 == 1;
    let (inside, outside): (Vec<u8>, Vec<u8>) = (0..rules as u8).partition(is_inside);
    [outside, inside].concat()
}
