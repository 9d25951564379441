//! Reading a model text, and the numbers 1 to 9.

use super::expression::{self, Expression, Place};
use crate::answer::{Reason, Refused};

#[derive(Clone, Debug, PartialEq, Eq)]
pub struct Model {
    pub bits: usize,
    pub init: Expression,
    /// One to four, in the text's order.
    pub properties: Vec<Expression>,
    pub rules: Vec<Rule>,
}

#[derive(Clone, Debug, PartialEq, Eq)]
pub struct Rule {
    pub name: Vec<u8>,
    /// Which pairs of states the rule allows.
    pub step: Expression,
    /// In which states the rule lets a run start; `1` where the line has no start part.
    pub start: Expression,
}

const MOST_PROPERTIES: usize = 4;

/// Reads a model, or gives the first number that fits: line by line, and in the order of the numbers within a line.
pub fn read(text: &[u8]) -> Result<Model, Refused> {
    let mut lines = Lines { rest: text, number: 0 };
    let value = lines.value_due(b"vars=")?;
    let bits = lines.in_this_line(read_count(value, 7))?;
    let value = lines.value_due(b"rules=")?;
    let rule_count = lines.in_this_line(read_count(value, 16))?;
    let value = lines.value_due(b"init=")?;
    let init = lines.in_this_line(expression::read(value, bits, Place::State))?;
    let properties = read_properties(&mut lines, bits)?;
    let mut rules = Vec::new();
    for _ in 0..rule_count {
        let value = lines.value_due(b"rule=")?;
        let rule = lines.in_this_line(read_rule(value, bits, &rules))?;
        rules.push(rule);
    }
    if !lines.rest.is_empty() {
        return Err(Refused::new(Reason::BytesFollow, lines.number + 1));
    }
    Ok(Model { bits, init, properties, rules })
}

/// A property line is due. The next line is one too if it starts with the key, up to the fourth of them; after that a rule
/// line is due.
fn read_properties(lines: &mut Lines, bits: usize) -> Result<Vec<Expression>, Refused> {
    const KEY: &[u8] = b"prop=";
    let mut properties = Vec::new();
    loop {
        let value = lines.value_due(KEY)?;
        properties.push(lines.in_this_line(expression::read(value, bits, Place::State))?);
        if properties.len() == MOST_PROPERTIES || !lines.rest.starts_with(KEY) {
            return Ok(properties);
        }
    }
}

/// The lines not yet read, and the number of the line read last (the first is 1).
struct Lines<'text> {
    rest: &'text [u8],
    number: u8,
}

impl<'text> Lines<'text> {
    /// Takes the next line and gives what stands after its key, or refuses it with number 1.
    fn value_due(&mut self, key: &[u8]) -> Result<&'text [u8], Refused> {
        self.number += 1;
        let missing = Refused::new(Reason::LineDue, self.number);
        let end = self.rest.iter().position(|byte| *byte == 10).ok_or(missing)?;
        let line = &self.rest[..end];
        self.rest = &self.rest[end + 1..];
        line.strip_prefix(key).ok_or(missing)
    }

    fn in_this_line<T>(&self, read: Result<T, Reason>) -> Result<T, Refused> {
        read.map_err(|reason| Refused::new(reason, self.number))
    }
}

/// A count is proper if it is written exactly as one of the numbers from 1 to `largest`.
fn read_count(value: &[u8], largest: usize) -> Result<usize, Reason> {
    (1..=largest).find(|count| count.to_string().as_bytes() == value).ok_or(Reason::Count)
}

fn read_rule(value: &[u8], bits: usize, earlier: &[Rule]) -> Result<Rule, Reason> {
    let (name, expressions) = at_first_colon(value).ok_or(Reason::Name)?;
    if !is_name(name) {
        return Err(Reason::Name);
    }
    if earlier.iter().any(|rule| rule.name == name) {
        return Err(Reason::NameTwice);
    }
    let (step, start) = read_parts(expressions, bits)?;
    Ok(Rule { name: name.to_vec(), step, start })
}

/// The step part goes up to the second `:` of the line, and the start part is all that follows it, a third `:` included. It
/// is looked at only if the step part has passed.
fn read_parts(bytes: &[u8], bits: usize) -> Result<(Expression, Expression), Reason> {
    match at_first_colon(bytes) {
        None => Ok((expression::read(bytes, bits, Place::Step)?, Expression::Constant(true))),
        Some((step, start)) => {
            let step = expression::read(step, bits, Place::Step)?;
            Ok((step, expression::read(start, bits, Place::State)?))
        }
    }
}

/// What stands before the first `:`, and what stands after it; none if there is no `:`.
fn at_first_colon(bytes: &[u8]) -> Option<(&[u8], &[u8])> {
    let colon = bytes.iter().position(|byte| *byte == b':')?;
    Some((&bytes[..colon], &bytes[colon + 1..]))
}

fn is_name(name: &[u8]) -> bool {
    (1..=8).contains(&name.len()) && name.iter().all(|byte| matches!(byte, b'a'..=b'z' | b'0'..=b'9'))
}
