//! Logs of states, and bytes that are refused in place of one.

use super::generator::Random;
use super::lists::random_set;
use super::properties::start_state;
use super::written::Written;
use crate::answer::Reason;
use crate::handed::Guarded;
use crate::lent::Fill;
use crate::plain::system::TransitionSystem;

/// So many states of a model, of which the first meets `init` if any does.
pub fn states(random: &mut Random, written: &Written, length: usize) -> Vec<u8> {
    let mut log = vec![start_state(random, written) as u8];
    log.extend((1..length).map(|_| random.below(1 << written.bits) as u8));
    log
}

/// What the states of a log keep to.
#[derive(Clone, Copy, Debug, PartialEq, Eq, PartialOrd, Ord)]
pub enum Kind {
    /// A run of the full set: no rule is broken.
    Run,
    /// A run of some of the rules: only others are broken.
    RunOfSome,
    /// Steps of the full set, from a state that meets `init`: a rule is broken by its start part or not at all.
    Steps,
    /// The same, with a state now and then that no step leads to.
    Disturbed,
    /// Any states, of which the first meets `init`.
    Any,
}

impl Kind {
    pub const ALL: [Kind; 5] = [Kind::Run, Kind::RunOfSome, Kind::Steps, Kind::Disturbed, Kind::Any];
}

/// A log of this kind with so many states, or fewer where no step goes on. None if it could not begin.
pub fn log(random: &mut Random, system: &TransitionSystem, kind: Kind, length: usize) -> Option<Vec<u8>> {
    let full_set = system.full_set();
    match kind {
        Kind::Run => walk(random, system, full_set, full_set, 0, length),
        Kind::RunOfSome => {
            let set = random_set(random) & full_set;
            walk(random, system, set, set, 0, length)
        }
        Kind::Steps => walk(random, system, 0, full_set, 0, length),
        Kind::Disturbed => {
            let percent = random.pick(&[2, 10, 30]);
            walk(random, system, 0, full_set, percent, length)
        }
        Kind::Any => walk(random, system, 0, 0, 0, length),
    }
}

/// Begins in a start state of the one set and goes on by steps of the other; with so many chances in a hundred by any pair.
fn walk(
    random: &mut Random,
    system: &TransitionSystem,
    start: u16,
    steps: u16,
    percent: usize,
    length: usize,
) -> Option<Vec<u8>> {
    let is_start = system.start_states(start);
    let mut now = any_that(random, system, |state| is_start[state])?;
    let mut log = vec![now as u8];
    while log.len() < length {
        let set = if random.percent(percent) { 0 } else { steps };
        let Some(later) = any_that(random, system, |later| system.is_step(set, now, later)) else { break };
        log.push(later as u8);
        now = later;
    }
    Some(log)
}

/// Any of the states that are as asked; none if there is none.
fn any_that(
    random: &mut Random,
    system: &TransitionSystem,
    is_asked: impl Fn(usize) -> bool,
) -> Option<usize> {
    let first = random.below(system.states);
    (first..system.states).chain(0..first).find(|state| is_asked(*state))
}

/// Why bytes are refused in place of a log.
#[derive(Clone, Copy, Debug, PartialEq, Eq, PartialOrd, Ord)]
pub enum Fault {
    Empty,
    /// A state of 2^N or more comes first.
    BeyondFirst,
    /// It comes between others.
    BeyondBetween,
    /// It comes last, behind others.
    BeyondLast,
    /// The first state does not meet `init`.
    InitUnmet,
    /// The same, and a later one is 2^N or more.
    InitUnmetAndBeyond,
}

impl Fault {
    pub const ALL: [Fault; 6] = [
        Fault::Empty,
        Fault::BeyondFirst,
        Fault::BeyondBetween,
        Fault::BeyondLast,
        Fault::InitUnmet,
        Fault::InitUnmetAndBeyond,
    ];

    /// By 14, unless `init` is all that is wrong.
    pub fn reason(self) -> Reason {
        match self {
            Fault::InitUnmet => Reason::InitUnmet,
            _ => Reason::NotALog,
        }
    }

    /// Whether logs for this model can have it: where every state meets `init`, the first does too.
    pub fn can_be(self, system: &TransitionSystem) -> bool {
        !matches!(self, Fault::InitUnmet | Fault::InitUnmetAndBeyond) || system.init.contains(&false)
    }

    /// A log with this fault has so many states, or more.
    fn fewest_states(self) -> usize {
        match self {
            Fault::Empty | Fault::BeyondFirst | Fault::InitUnmet => 1,
            Fault::BeyondLast | Fault::InitUnmetAndBeyond => 2,
            Fault::BeyondBetween => 3,
        }
    }
}

/// Bytes with this fault and no other. Where there are none, they are a part of a log, whose states stand beside them in memory.
pub fn with_fault(random: &mut Random, system: &TransitionSystem, fault: Fault, fill: Fill) -> Guarded {
    let length = fault.fewest_states() + random.pick(&[0, 0, 1, 2, 5, 60, 300]);
    let mut log: Vec<u8> = (0..length).map(|_| random.below(system.states) as u8).collect();
    if let Some(first) = any_that(random, system, |state| system.init[state]) {
        log[0] = first as u8;
    }
    if matches!(fault, Fault::InitUnmet | Fault::InitUnmetAndBeyond) {
        let unmet = any_that(random, system, |state| !system.init[state]);
        log[0] = unmet.expect("a fault that can be") as u8;
    }
    let at = match fault {
        Fault::Empty => return Guarded::within(&log, 0..0, fill),
        Fault::InitUnmet => return Guarded::new(&log, fill),
        Fault::BeyondFirst => 0,
        Fault::BeyondBetween => random.between(1, length - 2),
        Fault::BeyondLast => length - 1,
        Fault::InitUnmetAndBeyond => random.between(1, length - 1),
    };
    log[at] = beyond(random, system, log[at]);
    Guarded::new(&log, fill)
}

/// 2^N or more; often 2^N itself, or a byte whose lower bits are the state that it stands for.
fn beyond(random: &mut Random, system: &TransitionSystem, state: u8) -> u8 {
    match random.below(10) {
        0..=3 => system.states as u8,
        4..=6 => 128 | state,
        7 => 255,
        _ => random.between(system.states, 255) as u8,
    }
}
