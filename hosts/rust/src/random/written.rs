//! Models and expressions as they are written.

use super::generator::Random;
use crate::plain::expression::Place;

/// A model before it is text.
#[derive(Clone, Debug)]
pub struct Written {
    pub bits: usize,
    pub init: String,
    pub properties: Vec<String>,
    pub rules: Vec<WrittenRule>,
}

/// A rule before it is a line.
#[derive(Clone, Debug, PartialEq, Eq)]
pub struct WrittenRule {
    pub name: String,
    pub step: String,
    pub start: Option<String>,
}

impl WrittenRule {
    /// Without a start part.
    pub fn new(name: String, step: String) -> WrittenRule {
        WrittenRule { name, step, start: None }
    }

    fn line(&self) -> String {
        let WrittenRule { name, step, start } = self;
        match start {
            None => format!("rule={name}:{step}\n"),
            Some(start) => format!("rule={name}:{step}:{start}\n"),
        }
    }
}

impl Written {
    pub fn text(&self) -> Vec<u8> {
        let Written { bits, init, properties, rules } = self;
        let mut text = format!("vars={bits}\nrules={}\ninit={init}\n", rules.len());
        for property in properties {
            text += &format!("prop={property}\n");
        }
        for rule in rules {
            text += &rule.line();
        }
        text.into_bytes()
    }

    /// How many of its rules have a start part.
    pub fn start_parts(&self) -> usize {
        self.rules.iter().filter(|rule| rule.start.is_some()).count()
    }

    /// The same rules with other properties.
    pub fn with_properties(&self, properties: Vec<String>) -> Written {
        Written { properties, ..self.clone() }
    }

    /// Each property alone with the same rules, in the text's order.
    pub fn by_property(&self) -> Vec<Written> {
        self.properties.iter().map(|property| self.with_properties(vec![property.clone()])).collect()
    }
}

pub fn now(bit: usize) -> String {
    char::from(b'a' + bit as u8).to_string()
}

pub fn later(bit: usize) -> String {
    char::from(b'A' + bit as u8).to_string()
}

/// A letter, or its negation.
pub fn literal(letter: String, positive: bool) -> String {
    if positive {
        letter
    } else {
        format!("!{letter}")
    }
}

/// Joins operands by an operator with two: `&`, a, b, c become `&a&bc`.
pub fn join(operator: char, operands: &[String]) -> String {
    let operators = operands[..operands.len() - 1].iter().map(|operand| format!("{operator}{operand}"));
    operators.collect::<String>() + &operands[operands.len() - 1]
}

/// An expression of exactly `length` bytes over the first `bits` bits, with capital letters in the step part of a rule.
pub fn expression(random: &mut Random, bits: usize, place: Place, length: usize) -> String {
    match length {
        1 => leaf(random, bits, place),
        2 => format!("!{}", expression(random, bits, place, 1)),
        _ if random.percent(15) => format!("!{}", expression(random, bits, place, length - 1)),
        _ => {
            let operator = random.pick(&['&', '|', '>', '=']);
            let first = random.between(1, length - 2);
            let one = expression(random, bits, place, first);
            let two = expression(random, bits, place, length - 1 - first);
            format!("{operator}{one}{two}")
        }
    }
}

fn leaf(random: &mut Random, bits: usize, place: Place) -> String {
    let bit = random.below(bits);
    match random.below(20) {
        0 => random.pick(&["0", "1"]).to_string(),
        1..=10 if place == Place::Step => later(bit),
        _ => now(bit),
    }
}

/// An expression of any length, short ones more often.
pub fn any_expression(random: &mut Random, bits: usize, place: Place) -> String {
    let longest = random.pick(&[1, 3, 8, 20, 64]);
    let length = random.between(1, longest);
    expression(random, bits, place, length)
}

/// Lengthens an expression to `length` bytes without changing its value, unless one byte alone is missing.
pub fn pad(random: &mut Random, expression: &str, length: usize) -> String {
    let mut padded = expression.to_string();
    while padded.len() + 2 <= length {
        let odd = (length - padded.len()) % 2 == 1;
        let wrapper = if odd { "!=0" } else { random.pick(&["!!", "&1", "|0", ">1", "=1"]) };
        padded.insert_str(0, wrapper);
    }
    padded
}

/// Different proper names, some of which begin like others.
pub fn names(random: &mut Random, count: usize) -> Vec<String> {
    let mut names: Vec<String> = Vec::new();
    while names.len() < count {
        let candidate = match names.last() {
            Some(name) if name.len() < 8 && random.percent(20) => {
                format!("{name}{}", name_byte(random))
            }
            _ => (0..random.between(1, 8)).map(|_| name_byte(random)).collect(),
        };
        if !names.contains(&candidate) {
            names.push(candidate);
        }
    }
    names
}

fn name_byte(random: &mut Random) -> char {
    char::from(random.pick(b"abcdefghijklmnopqrstuvwxyz0123456789"))
}
