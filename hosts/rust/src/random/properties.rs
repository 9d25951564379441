//! Several properties for a random model. They are mostly kept by some rules: properties that are freely mixed would leave
//! hardly any model with a core.

use super::generator::Random;
use super::written::{expression, join, literal, now, Written};
use crate::plain::expression::{read, Place};

/// How many models with one, two, three and four properties came up.
#[derive(Clone, Debug, Default)]
pub struct PropertyCounts([usize; 4]);

impl PropertyCounts {
    pub fn note(&mut self, properties: usize) {
        self.0[properties - 1] += 1;
    }

    /// The least of the four.
    pub fn fewest(&self) -> usize {
        self.0.into_iter().min().expect("four of them")
    }

    /// With two, three or four properties.
    pub fn several(&self) -> usize {
        self.0[1..].iter().sum()
    }
}

/// Gives the model so many properties, 1 to 4. Where they are several, its own is one of them in four models of ten, anywhere
/// among them.
pub fn with_several_properties(random: &mut Random, written: &mut Written, count: usize) {
    if count == 1 {
        return;
    }
    let start = start_state(random, written);
    let bits = named_bits(random, written);
    let mut properties: Vec<String> =
        (0..count).map(|place| property(random, written, start, bits[place % bits.len()])).collect();
    if random.percent(40) {
        properties[random.below(count)] = written.properties[0].clone();
    }
    written.properties = properties;
}

/// A random state that meets `init`, or any if none does.
pub(super) fn start_state(random: &mut Random, written: &Written) -> usize {
    let init = read(written.init.as_bytes(), written.bits, Place::State).expect("an accepted model");
    let starts: Vec<usize> = (0..1 << written.bits).filter(|state| init.value(*state, 0)).collect();
    if starts.is_empty() {
        return random.below(1 << written.bits);
    }
    random.pick(&starts)
}

/// The bits that the model's own property speaks of, so that some rules may be about them, in any order; all bits if it
/// speaks of none.
fn named_bits(random: &mut Random, written: &Written) -> Vec<usize> {
    let is_named = |bit: &usize| written.properties[0].contains(&now(*bit));
    let mut bits: Vec<usize> = (0..written.bits).filter(is_named).collect();
    if bits.is_empty() {
        bits = (0..written.bits).collect();
    }
    random.shuffle(&mut bits);
    bits
}

/// Most often one that the start state meets: this bit stays as it is there, or stays so under a condition.
fn property(random: &mut Random, written: &Written, start: usize, bit: usize) -> String {
    let bits = written.bits;
    let kept = literal(now(bit), start >> bit & 1 == 1);
    match random.below(20) {
        0..=7 => kept,
        8..=12 => {
            let mut literals = vec![kept];
            for _ in 0..random.between(1, 2) {
                literals.push(literal(now(random.below(bits)), random.percent(50)));
            }
            random.shuffle(&mut literals);
            join('|', &literals)
        }
        13..=14 => written.properties[0].clone(),
        15..=16 => other_than(random.below(1 << bits), bits),
        17 => "1".to_string(),
        _ => {
            let length = random.between(1, 7);
            expression(random, bits, Place::State, length)
        }
    }
}

/// Every state is good but this one.
fn other_than(state: usize, bits: usize) -> String {
    let literals: Vec<String> = (0..bits).map(|bit| literal(now(bit), state >> bit & 1 == 1)).collect();
    format!("!{}", join('&', &literals))
}
