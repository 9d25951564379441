//! The trace of a broken set.

use super::system::TransitionSystem;

/// The shortest run of the set that ends in a bad state; of several, the one with the smaller state at the first place
/// where they differ. None if the set holds.
///
/// Layer by layer, each state that is reached for the first time is given its smallest run of that length. A smallest
/// shortest run consists of a smallest shortest run to its last state but one and one more step, so no other run needs
/// to be kept.
pub fn trace(system: &TransitionSystem, set: u16) -> Option<Vec<u8>> {
    let start = system.start_states(set);
    let mut layer: Vec<Vec<u8>> =
        (0..system.states).filter(|state| start[*state]).map(|state| vec![state as u8]).collect();
    let mut seen = vec![false; system.states];
    while !layer.is_empty() {
        if let Some(run) = layer.iter().filter(|run| system.bad[last(run)]).min() {
            return Some(run.clone());
        }
        for run in &layer {
            seen[last(run)] = true;
        }
        layer = (0..system.states)
            .filter(|state| !seen[*state])
            .filter_map(|state| smallest_run_on(system, set, &layer, state))
            .collect();
    }
    None
}

/// The smallest of the runs that can go on to `state`, with that state added.
fn smallest_run_on(system: &TransitionSystem, set: u16, runs: &[Vec<u8>], state: usize) -> Option<Vec<u8>> {
    let smallest = runs.iter().filter(|run| system.is_step(set, last(run), state)).min()?;
    let mut run = smallest.clone();
    run.push(state as u8);
    Some(run)
}

fn last(run: &[u8]) -> usize {
    usize::from(run[run.len() - 1])
}
