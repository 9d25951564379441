//! Expressions, written operator first.

use crate::answer::Reason;

pub const LONGEST: usize = 64;

#[derive(Clone, Debug, PartialEq, Eq)]
pub enum Expression {
    Constant(bool),
    /// A bit now, counted from 0.
    Now(usize),
    /// The same bit one second later.
    Later(usize),
    Not(Box<Expression>),
    And(Box<Expression>, Box<Expression>),
    Or(Box<Expression>, Box<Expression>),
    Implies(Box<Expression>, Box<Expression>),
    Alike(Box<Expression>, Box<Expression>),
}

/// Where an expression stands. Capital letters may stand in the step part of a rule only.
#[derive(Clone, Copy, Debug, PartialEq, Eq)]
pub enum Place {
    /// `init`, a property or the start part of a rule: it speaks of one state.
    State,
    /// The step part of a rule: it speaks of a state and the state one second later.
    Step,
}

impl Expression {
    /// Its value for a state and the state one second later: `a` weighs 1, `b` 2, and so on.
    pub fn value(&self, now: usize, later: usize) -> bool {
        match self {
            Expression::Constant(value) => *value,
            Expression::Now(bit) => now >> bit & 1 == 1,
            Expression::Later(bit) => later >> bit & 1 == 1,
            Expression::Not(operand) => !operand.value(now, later),
            Expression::And(one, two) => one.value(now, later) && two.value(now, later),
            Expression::Or(one, two) => one.value(now, later) || two.value(now, later),
            Expression::Implies(one, two) => !one.value(now, later) || two.value(now, later),
            Expression::Alike(one, two) => one.value(now, later) == two.value(now, later),
        }
    }
}

/// Reads the bytes of one expression of a model with `bits` bits, or gives the first of the numbers 5 to 8 that fits.
pub fn read(bytes: &[u8], bits: usize, place: Place) -> Result<Expression, Reason> {
    if bytes.is_empty() || bytes.len() > LONGEST {
        return Err(Reason::ExpressionLength);
    }
    if !bytes.iter().all(|byte| b"01!&|>=abcdefgABCDEFG".contains(byte)) {
        return Err(Reason::Byte);
    }
    if !bytes.iter().all(|byte| letter_allowed(*byte, bits, place)) {
        return Err(Reason::Letter);
    }
    match read_operand(bytes) {
        Some((expression, [])) => Ok(expression),
        _ => Err(Reason::NotOne),
    }
}

fn letter_allowed(byte: u8, bits: usize, place: Place) -> bool {
    match byte {
        b'a'..=b'g' => b"abcdefg"[..bits].contains(&byte),
        b'A'..=b'G' => place == Place::Step && b"ABCDEFG"[..bits].contains(&byte),
        _ => true,
    }
}

/// Reads one expression from the beginning of `bytes`; gives it and the bytes after it.
fn read_operand(bytes: &[u8]) -> Option<(Expression, &[u8])> {
    let (first, rest) = bytes.split_first()?;
    match first {
        b'0' => Some((Expression::Constant(false), rest)),
        b'1' => Some((Expression::Constant(true), rest)),
        b'a'..=b'g' => Some((Expression::Now(usize::from(first - b'a')), rest)),
        b'A'..=b'G' => Some((Expression::Later(usize::from(first - b'A')), rest)),
        b'!' => {
            let (operand, rest) = read_operand(rest)?;
            Some((Expression::Not(Box::new(operand)), rest))
        }
        b'&' => read_two(Expression::And, rest),
        b'|' => read_two(Expression::Or, rest),
        b'>' => read_two(Expression::Implies, rest),
        b'=' => read_two(Expression::Alike, rest),
        _ => None,
    }
}

fn read_two(
    operator: fn(Box<Expression>, Box<Expression>) -> Expression,
    bytes: &[u8],
) -> Option<(Expression, &[u8])> {
    let (one, rest) = read_operand(bytes)?;
    let (two, rest) = read_operand(rest)?;
    Some((operator(Box::new(one), Box::new(two)), rest))
}
