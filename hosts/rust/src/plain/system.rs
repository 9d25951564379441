//! The transition system of a model.

use super::text::{Model, Rule};

#[derive(Clone)]
pub struct TransitionSystem {
    pub states: usize,
    pub rules: usize,
    /// The states that meet `init`.
    pub init: Vec<bool>,
    /// For each state the rules whose start part it meets, as a set.
    met_at_start: Vec<u16>,
    /// The states that break some property.
    pub bad: Vec<bool>,
    /// The states that break a property, for each in the text's order.
    pub breaking: Vec<Vec<bool>>,
    /// For each pair of states the rules whose step part it meets, as a set: pair (now, later) at `now * states + later`.
    met: Vec<u16>,
}

impl TransitionSystem {
    /// Evaluates `init`, each property and each start part once for each state, and each step part once for each pair of
    /// states.
    pub fn of(model: &Model) -> TransitionSystem {
        let states = 1 << model.bits;
        let mut met = Vec::with_capacity(states * states);
        for now in 0..states {
            for later in 0..states {
                met.push(rules_that(model, |rule| rule.step.value(now, later)));
            }
        }
        // None of them names a bit one second later, so any later state does.
        let init = (0..states).map(|state| model.init.value(state, 0)).collect();
        let met_at_start =
            (0..states).map(|state| rules_that(model, |rule| rule.start.value(state, 0))).collect();
        let breaking: Vec<Vec<bool>> = (model.properties.iter())
            .map(|property| (0..states).map(|state| !property.value(state, 0)).collect())
            .collect();
        let bad = (0..states).map(|state| breaking.iter().any(|breaks| breaks[state])).collect();
        TransitionSystem { states, rules: model.rules.len(), init, met_at_start, bad, breaking, met }
    }

    /// The same with one property alone, the one at this place of the text (the first is 0).
    pub fn by_property(&self, place: usize) -> TransitionSystem {
        let breaks = self.breaking[place].clone();
        TransitionSystem { bad: breaks.clone(), breaking: vec![breaks], ..self.clone() }
    }

    /// The same with these start states, whichever set is judged.
    pub fn with_start_states(&self, start: Vec<bool>) -> TransitionSystem {
        let every_rule = vec![self.full_set(); self.states];
        TransitionSystem { init: start, met_at_start: every_rule, ..self.clone() }
    }

    /// The set of all rules.
    pub fn full_set(&self) -> u16 {
        u16::MAX >> (16 - self.rules)
    }

    /// The start states of a set are those that meet `init` and the start part of each rule in the set.
    pub fn start_states(&self, set: u16) -> Vec<bool> {
        let is_start = |state: usize| self.init[state] && self.meets_start_parts(set, state);
        (0..self.states).map(is_start).collect()
    }

    /// Whether a state meets the start part of every rule of the set, be `init` met or not.
    pub fn meets_start_parts(&self, set: u16, state: usize) -> bool {
        self.met_at_start[state] & set == set
    }

    /// A step of a set is a pair of states that meets the step part of every rule of the set.
    pub fn is_step(&self, set: u16, now: usize, later: usize) -> bool {
        self.met[now * self.states + later] & set == set
    }

    /// A set holds if every reached state meets every property, start states included. Every start state is reached, and
    /// so is every state a step away from a reached one; the search goes on from each reached state once and ends early at
    /// a bad one.
    pub fn holds(&self, set: u16) -> bool {
        let mut reached = self.start_states(set);
        let mut gone_on_from = vec![false; self.states];
        while let Some(now) = (0..self.states).find(|state| reached[*state] && !gone_on_from[*state]) {
            if self.bad[now] {
                return false;
            }
            gone_on_from[now] = true;
            let row = &self.met[now * self.states..][..self.states];
            for (later, met) in reached.iter_mut().zip(row) {
                *later |= met & set == set;
            }
        }
        true
    }
}

/// The set of the rules that are as asked.
fn rules_that(model: &Model, is_asked: impl Fn(&Rule) -> bool) -> u16 {
    let mut set = 0;
    for (place, rule) in model.rules.iter().enumerate() {
        if is_asked(rule) {
            set |= 1 << place;
        }
    }
    set
}
