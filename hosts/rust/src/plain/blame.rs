//! Blame from a station's log.

use super::system::TransitionSystem;
use crate::answer::{Blame, Breach, Reason, Refused};

/// Gives the set of rules broken anywhere in the log, and the place of the first state that breaks a property.
pub fn blame(system: &TransitionSystem, log: &[u8]) -> Result<Blame, Refused> {
    let states: Vec<usize> = log.iter().map(|state| usize::from(*state)).collect();
    if states.is_empty() || states.iter().any(|state| *state >= system.states) {
        return Err(Refused::new(Reason::NotALog, 0));
    }
    if !system.init[states[0]] {
        return Err(Refused::new(Reason::InitUnmet, 0));
    }
    let broken = (0..system.rules).filter(|rule| is_broken(system, 1 << rule, &states));
    let first_bad = states.iter().position(|state| system.bad[*state]);
    Ok(Blame {
        broken: broken.fold(0, |set, rule| set | 1 << rule),
        breach: first_bad.map_or(Breach::Nowhere { length: log.len() }, Breach::At),
    })
}

/// A rule is broken if its start part fails in the first state, or its step part fails between neighbours. It is given as the
/// set of this rule alone.
fn is_broken(system: &TransitionSystem, rule: u16, states: &[usize]) -> bool {
    let fails_between = |pair: &[usize]| !system.is_step(rule, pair[0], pair[1]);
    !system.meets_start_parts(rule, states[0]) || states.windows(2).any(fails_between)
}
