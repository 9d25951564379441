//! The reached states of a set.

use super::system::TransitionSystem;

pub struct Collected {
    /// The reached states in the order of marking.
    pub marked: Vec<usize>,
    /// How many pairs were tried.
    pub pairs: usize,
}

/// Marks the set's start states first, by number; then each marked state, in the order of marking, is tried once as the first
/// of a pair with every state by number, marked or not. It ends as soon as every state is marked.
pub fn collect(system: &TransitionSystem, set: u16) -> Collected {
    let start = system.start_states(set);
    let mut marked: Vec<usize> = (0..system.states).filter(|state| start[*state]).collect();
    let mut pairs = 0;
    let mut place = 0;
    while place < marked.len() {
        let first = marked[place];
        for second in 0..system.states {
            if marked.len() == system.states {
                return Collected { marked, pairs };
            }
            pairs += 1;
            if system.is_step(set, first, second) && !marked.contains(&second) {
                marked.push(second);
            }
        }
        place += 1;
    }
    Collected { marked, pairs }
}
