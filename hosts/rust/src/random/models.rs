//! Random accepted models. Freely mixed expressions mostly give models without any core, so most kinds have a plan.

use super::generator::Random;
use super::properties::with_several_properties;
use super::start_parts::with_start_parts;
use super::written::{expression, join, later, literal, names, now, pad, Written, WrittenRule};
use crate::plain::expression::Place;

#[derive(Clone, Copy, Debug, PartialEq, Eq)]
pub enum Kind {
    /// Expressions of any length and form.
    Wild,
    /// A start cube, a property clause and rules that are clauses of up to three literals.
    Clauses,
    /// Bits that must stay 0, each held by several rules that do the same: the cores multiply.
    Alternatives,
    /// Bits of which one must stay 0, each held by several rules only together: the cuts multiply.
    Joint,
    /// A binary counter: long runs.
    Counter,
    /// Many start states, many bad states, and each rule forbids about half of the pairs: cores and cuts by the hundred.
    Dense,
}

pub const KINDS: [Kind; 6] =
    [Kind::Wild, Kind::Clauses, Kind::Alternatives, Kind::Joint, Kind::Counter, Kind::Dense];

/// A model of a random kind with one to four properties, every other one with start parts, one in five with a twist.
pub fn model(random: &mut Random, bits: usize, rules: usize) -> Written {
    let kind = random.pick(&KINDS);
    let mut written = model_of(random, kind, bits, rules);
    let count = random.between(1, 4);
    with_several_properties(random, &mut written, count);
    if random.percent(50) {
        with_start_parts(random, &mut written);
    }
    match random.below(20) {
        0 => without_start_state(random, &mut written),
        1 => with_contradiction(random, &mut written),
        2 => without_successors(random, &mut written),
        3 => with_long_expressions(random, &mut written),
        _ => {}
    }
    written
}

/// A model with one property and no start part.
pub fn model_of(random: &mut Random, kind: Kind, bits: usize, rules: usize) -> Written {
    let (init, prop, mut expressions) = match kind {
        Kind::Wild => wild(random, bits, rules),
        Kind::Clauses => clauses(random, bits, rules),
        Kind::Alternatives => alternatives(random, bits, rules),
        Kind::Joint => joint(random, bits, rules),
        Kind::Counter => counter(random, bits, rules),
        Kind::Dense => dense(random, bits, rules),
    };
    random.shuffle(&mut expressions);
    let rules = names(random, rules).into_iter().zip(expressions);
    let rules = rules.map(|(name, step)| WrittenRule::new(name, step)).collect();
    Written { bits, init, properties: vec![prop], rules }
}

/// `init`, the property, and the step parts of the rules.
type Parts = (String, String, Vec<String>);

fn wild(random: &mut Random, bits: usize, rules: usize) -> Parts {
    let mut free = |place| {
        let longest = random.pick(&[3, 8, 20, 64]);
        let length = random.between(1, longest);
        expression(random, bits, place, length)
    };
    (free(Place::State), free(Place::State), (0..rules).map(|_| free(Place::Step)).collect())
}

fn clauses(random: &mut Random, bits: usize, rules: usize) -> Parts {
    let start = random.below(1 << bits);
    let fixed: Vec<usize> = (0..bits).filter(|_| random.percent(85)).collect();
    let cube: Vec<String> = fixed.iter().map(|bit| literal(now(*bit), start >> bit & 1 == 1)).collect();
    let init = if cube.is_empty() { "1".to_string() } else { join('&', &cube) };
    let kept = random.below(bits);
    let mut prop = vec![literal(now(kept), start >> kept & 1 == 1)];
    for _ in 0..random.below(3) {
        prop.push(literal(now(random.below(bits)), random.percent(50)));
    }
    let expressions = (0..rules).map(|_| rule_clause(random, bits, start)).collect();
    (init, join('|', &prop), expressions)
}

/// A clause that mostly keeps some bit as it is in `start`, under conditions on other bits.
fn rule_clause(random: &mut Random, bits: usize, start: usize) -> String {
    let bit = random.below(bits);
    if random.percent(15) {
        return format!("={}{}", later(bit), now(bit));
    }
    let mut literals = vec![literal(later(bit), (start >> bit & 1 == 1) == random.percent(85))];
    for _ in 0..random.below(3) {
        let bit = random.below(bits);
        let letter = if random.percent(40) { later(bit) } else { now(bit) };
        literals.push(literal(letter, random.percent(50)));
    }
    random.shuffle(&mut literals);
    join('|', &literals)
}

fn alternatives(random: &mut Random, bits: usize, rules: usize) -> Parts {
    let kept = random.between(1, bits.min(rules));
    let all_kept = none_of(&(0..kept).map(now).collect::<Vec<_>>());
    let init =
        if random.percent(50) { all_kept.clone() } else { none_of(&(0..bits).map(now).collect::<Vec<_>>()) };
    let expressions = (0..rules).map(|place| keeper(random, place % kept, kept)).collect();
    (init, all_kept, expressions)
}

/// A rule that keeps a bit 0 as long as the first `kept` bits are 0.
fn keeper(random: &mut Random, bit: usize, kept: usize) -> String {
    let (bit_now, bit_later) = (now(bit), later(bit));
    let other = random.below(kept);
    match random.below(6) {
        0 => format!("={bit_later}{bit_now}"),
        1 => format!(">{bit_later}{bit_now}"),
        2 => format!(">{bit_later}|{bit_now}{}", now(other)),
        3 => format!("!|{bit_later}{}", later(other)),
        4 => format!(">!{}!{bit_later}", now(other)),
        _ => format!("!{bit_later}"),
    }
}

fn none_of(operands: &[String]) -> String {
    format!("!{}", join('|', operands))
}

fn joint(random: &mut Random, bits: usize, rules: usize) -> Parts {
    let kept = random.between(1, bits.min(rules).min(5));
    let init = none_of(&(0..bits).map(now).collect::<Vec<_>>());
    let prop = format!("!{}", join('&', &(0..kept).map(now).collect::<Vec<_>>()));
    let expressions =
        (0..rules).map(|place| condition_on(random, place % kept, place / kept, kept..bits)).collect();
    (init, prop, expressions)
}

/// A rule that lets a bit be set only under a condition on a bit of `spare`; the conditions of two neighbouring turns
/// mostly exclude one another, so that both rules together keep the bit 0.
fn condition_on(random: &mut Random, bit: usize, turn: usize, spare: std::ops::Range<usize>) -> String {
    if spare.is_empty() || random.percent(10) {
        return format!("!{}", later(bit));
    }
    let other =
        if random.percent(80) { spare.start + turn / 2 % spare.len() } else { random.below(spare.end) };
    let positive = if random.percent(90) { turn.is_multiple_of(2) } else { random.percent(50) };
    let letter = if random.percent(90) { later(other) } else { now(other) };
    format!(">{}{}", later(bit), literal(letter, positive))
}

fn counter(random: &mut Random, bits: usize, rules: usize) -> Parts {
    let all: Vec<String> = (0..bits).map(now).collect();
    let prop = match random.below(3) {
        0 => format!("!{}", join('&', &all)),
        1 => format!("!{}", now(bits - 1)),
        _ => {
            let length = random.between(1, 7);
            expression(random, bits, Place::State, length)
        }
    };
    let mut expressions: Vec<String> = (0..bits.min(rules)).map(counted_bit).collect();
    while expressions.len() < rules {
        let other = if random.percent(40) {
            counted_bit(random.below(bits))
        } else {
            rule_clause(random, bits, (1 << bits) - 1)
        };
        expressions.push(other);
    }
    (none_of(&all), prop, expressions)
}

/// The bit changes exactly when all lower bits are set.
fn counted_bit(bit: usize) -> String {
    if bit == 0 {
        return "=A!a".to_string();
    }
    let lower: Vec<String> = (0..bit).map(now).collect();
    format!("={}!={}{}", later(bit), now(bit), join('&', &lower))
}

/// The counter that goes from 0 through every state to the one with all bits set, which is bad.
pub fn full_counter(bits: usize) -> Written {
    let all: Vec<String> = (0..bits).map(now).collect();
    let rules = (0..bits).map(|bit| WrittenRule::new(now(bit), counted_bit(bit))).collect();
    Written { bits, init: none_of(&all), properties: vec![format!("!{}", join('&', &all))], rules }
}

/// Every start state has `a` unset and every bad state has it set, so nearly every cut is what one pair breaks.
fn dense(random: &mut Random, bits: usize, rules: usize) -> Parts {
    let letters: Vec<String> = (1..bits).flat_map(|bit| [now(bit), later(bit)]).collect();
    let forbidding = |random: &mut Random| match letters[..] {
        [] => random.pick(&["!A", ">Aa", "=Aa", "1"]).to_string(),
        _ => format!(">A{}", mixed(random, &letters, 3)),
    };
    ("!a".to_string(), "!a".to_string(), (0..rules).map(|_| forbidding(random)).collect())
}

/// An operator tree of the given depth over the letters.
fn mixed(random: &mut Random, letters: &[String], depth: usize) -> String {
    if depth == 0 {
        return literal(letters[random.below(letters.len())].clone(), random.percent(50));
    }
    let operator = random.pick(&['=', '=', '&', '&', '|']);
    let one = mixed(random, letters, depth - 1);
    let two = mixed(random, letters, depth - 1);
    format!("{operator}{one}{two}")
}

fn without_start_state(random: &mut Random, written: &mut Written) {
    let bit = now(random.below(written.bits));
    written.init = random.pick(&["0", "&x!x", "!=xx", "!>xx", "=x!x"]).replace('x', &bit);
}

/// Two rules that no pair of states meets together, though pairs may meet each of them.
fn with_contradiction(random: &mut Random, written: &mut Written) {
    let count = written.rules.len();
    if count == 1 {
        written.rules[0].step = "0".to_string();
        return;
    }
    let first = random.below(count);
    let second = (first + random.between(1, count - 1)) % count;
    let length = random.between(1, 12);
    let one = expression(random, written.bits, Place::Step, length);
    written.rules[second].step = format!("!{one}");
    written.rules[first].step = one;
}

/// A rule that no step from some states meets.
fn without_successors(random: &mut Random, written: &mut Written) {
    let place = random.below(written.rules.len());
    let length = random.between(1, 6);
    written.rules[place].step = expression(random, written.bits, Place::State, length);
}

/// Expressions of 62 to 64 bytes that mean the same as before.
fn with_long_expressions(random: &mut Random, written: &mut Written) {
    for rule in &mut written.rules {
        let length = random.between(62, 64);
        rule.step = pad(random, &rule.step, length);
        rule.start = rule.start.as_ref().map(|start| pad(random, start, length));
    }
    written.init = pad(random, &written.init, 64);
    for property in &mut written.properties {
        *property = pad(random, property, 64);
    }
}
