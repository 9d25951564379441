//! Start parts for a random model, and rule lines that are refused at their start part or before it.

use super::generator::Random;
use super::properties::start_state;
use super::written::{any_expression, expression, join, later, literal, now, Written, WrittenRule};
use crate::answer::{Reason, Refused};
use crate::plain::expression::{Place, LONGEST};

/// How many models came up in which no rule, some rules and every rule have a start part.
#[derive(Clone, Debug, Default)]
pub struct StartPartCounts {
    pub none: usize,
    pub some: usize,
    pub all: usize,
}

impl StartPartCounts {
    pub fn note(&mut self, written: &Written) {
        match written.start_parts() {
            0 => self.none += 1,
            count if count < written.rules.len() => self.some += 1,
            _ => self.all += 1,
        }
    }

    /// The least of the three.
    pub fn fewest(&self) -> usize {
        self.none.min(self.some).min(self.all)
    }
}

/// Gives some rules a start part, or all of them. In every other model `init` says less afterwards, and what it said is left to
/// the start parts: so they matter, and a rule may be relied on for its start part alone.
pub fn with_start_parts(random: &mut Random, written: &mut Written) {
    let before = written.clone();
    if random.percent(50) {
        written.init = weaker(random, &before);
    }
    let percent = random.pick(&[20, 50, 100]);
    let sure = random.below(written.rules.len());
    for (place, rule) in written.rules.iter_mut().enumerate() {
        if place == sure || random.percent(percent) {
            rule.start = Some(start_part(random, &before));
        }
    }
    if random.percent(10) {
        contradict(random, written);
    }
}

/// Met by every state that meets `init`, and mostly by others.
fn weaker(random: &mut Random, written: &Written) -> String {
    let with_more = format!("|{}{}", written.init, any_literal(random, written.bits));
    if with_more.len() > LONGEST || random.percent(50) {
        return "1".to_string();
    }
    with_more
}

fn any_literal(random: &mut Random, bits: usize) -> String {
    literal(now(random.below(bits)), random.percent(50))
}

/// Most often one that a state which meets `init` meets, or that keeps bad start states out.
fn start_part(random: &mut Random, written: &Written) -> String {
    match random.below(40) {
        0..=11 => written.init.clone(),
        12..=19 => written.properties[random.below(written.properties.len())].clone(),
        20..=26 => {
            let (state, bit) = (start_state(random, written), random.below(written.bits));
            literal(now(bit), state >> bit & 1 == 1)
        }
        27..=31 => {
            let literals: Vec<String> =
                (0..random.between(2, 3)).map(|_| any_literal(random, written.bits)).collect();
            join('|', &literals)
        }
        32..=33 => "1".to_string(),
        34 => "0".to_string(),
        _ => any_expression(random, written.bits, Place::State),
    }
}

/// Two rules whose start parts no state meets together, though states may meet each of them.
fn contradict(random: &mut Random, written: &mut Written) {
    let count = written.rules.len();
    if count == 1 {
        written.rules[0].start = Some("0".to_string());
        return;
    }
    let first = random.below(count);
    let second = (first + random.between(1, count - 1)) % count;
    let length = random.between(1, 12);
    let one = expression(random, written.bits, Place::State, length);
    written.rules[second].start = Some(format!("!{one}"));
    written.rules[first].start = Some(one);
}

/// What is wrong with an expression: with a start part, or with the step part before it.
#[derive(Clone, Copy, Debug, PartialEq, Eq, PartialOrd, Ord)]
pub enum Fault {
    Empty,
    TooLong,
    /// In a start part this is the third of the line.
    Colon,
    Byte,
    Capital,
    BeyondN,
    OperandMissing,
    TwoExpressions,
}

impl Fault {
    pub const OF_A_START_PART: [Fault; 8] = [
        Fault::Empty,
        Fault::TooLong,
        Fault::Colon,
        Fault::Byte,
        Fault::Capital,
        Fault::BeyondN,
        Fault::OperandMissing,
        Fault::TwoExpressions,
    ];

    /// A `:` ends the step part, and capital letters may stand in it.
    pub const OF_A_STEP_PART: [Fault; 6] = [
        Fault::Empty,
        Fault::TooLong,
        Fault::Byte,
        Fault::BeyondN,
        Fault::OperandMissing,
        Fault::TwoExpressions,
    ];

    pub fn reason(self) -> Reason {
        match self {
            Fault::Empty | Fault::TooLong => Reason::ExpressionLength,
            Fault::Colon | Fault::Byte => Reason::Byte,
            Fault::Capital | Fault::BeyondN => Reason::Letter,
            Fault::OperandMissing | Fault::TwoExpressions => Reason::NotOne,
        }
    }

    /// Whether a model with so many bits can have it: with seven no letter is beyond.
    pub fn can_be(self, bits: usize) -> bool {
        self != Fault::BeyondN || bits < 7
    }

    /// Bytes with this fault. Some of them have a fault with a larger number beside it.
    fn bytes(self, random: &mut Random, bits: usize, place: Place) -> String {
        let length = random.between(1, 20);
        let mut bytes = expression(random, bits, place, length);
        let at = random.below(bytes.len() + 1);
        match self {
            Fault::Empty => return String::new(),
            Fault::TooLong => {
                let length = random.pick(&[65, 65, 66, 67, 128, 129, 256, 320]);
                bytes.insert_str(0, &"!".repeat(length - bytes.len()));
                larger_faults(random, &mut bytes, &[" ", "h", "a"]);
            }
            Fault::Colon => {
                bytes.insert(at, ':');
                larger_faults(random, &mut bytes, &["A", "a", ":1"]);
            }
            Fault::Byte => {
                bytes.insert(at, random.pick(&[' ', 'h', 'z', 'H', '2', '9', '\0', '\r', '\t', '-', '~']));
                larger_faults(random, &mut bytes, &["A", "a"]);
            }
            Fault::Capital => {
                bytes = with_letter(&bytes, random.pick(&["A", "B", "C", "D", "E", "F", "G"][..bits]));
                larger_faults(random, &mut bytes, &["a", "&"]);
            }
            Fault::BeyondN => {
                let letter = random.pick(&[now, later])(random.between(bits, 6));
                bytes = with_letter(&bytes, &letter);
                larger_faults(random, &mut bytes, &["a", "&"]);
            }
            Fault::OperandMissing if random.percent(50) => {
                bytes.insert(0, random.pick(&['&', '|', '>', '=']))
            }
            // A part of an expression from its beginning is none.
            Fault::OperandMissing => {
                bytes.insert(0, '!');
                bytes.truncate(random.between(1, bytes.len() - 1));
            }
            Fault::TwoExpressions => bytes.push_str(&any_literal(random, bits)),
        }
        bytes
    }
}

/// Three in ten times one of these is added at the end.
fn larger_faults(random: &mut Random, bytes: &mut String, endings: &[&str]) {
    if random.percent(30) {
        bytes.push_str(random.pick(endings));
    }
}

/// The expression with its last byte, which is a letter or a digit, replaced.
fn with_letter(expression: &str, letter: &str) -> String {
    expression[..expression.len() - 1].to_string() + letter
}

/// What is wrong before the start part in the same line. It comes first, whatever number it has.
#[derive(Clone, Copy, Debug, PartialEq, Eq, PartialOrd, Ord)]
pub enum Earlier {
    Name,
    NameTwice,
    Step(Fault),
}

impl Earlier {
    /// Each of them, and none.
    pub fn every() -> Vec<Option<Earlier>> {
        let steps = Fault::OF_A_STEP_PART.map(|fault| Some(Earlier::Step(fault)));
        [None, Some(Earlier::Name), Some(Earlier::NameTwice)].into_iter().chain(steps).collect()
    }

    pub fn reason(self) -> Reason {
        match self {
            Earlier::Name => Reason::Name,
            Earlier::NameTwice => Reason::NameTwice,
            Earlier::Step(fault) => fault.reason(),
        }
    }

    /// Whether the rule at this place can have it: the first has no rule before it.
    pub fn can_be(self, bits: usize, place: usize) -> bool {
        match self {
            Earlier::Name => true,
            Earlier::NameTwice => place > 0,
            Earlier::Step(fault) => fault.can_be(bits),
        }
    }
}

/// The model with a fault at the start part of the rule at this place, and perhaps one before it in the line; and how that has to
/// be refused.
pub fn with_fault(
    random: &mut Random,
    written: &Written,
    place: usize,
    earlier: Option<Earlier>,
    fault: Fault,
) -> (Written, Refused) {
    let bits = written.bits;
    let mut faulty = written.clone();
    let rule = &mut faulty.rules[place];
    rule.start = Some(fault.bytes(random, bits, Place::State));
    match earlier {
        None => {}
        Some(Earlier::Name) => rule.name = random.pick(&["", "ninebytes", "Name", "a b"]).to_string(),
        Some(Earlier::NameTwice) => rule.name = written.rules[random.below(place)].name.clone(),
        Some(Earlier::Step(fault)) => rule.step = fault.bytes(random, bits, Place::Step),
    }
    let reason = earlier.map_or(fault.reason(), Earlier::reason);
    let line = 4 + written.properties.len() + place;
    (faulty, Refused::new(reason, line as u8))
}

/// The same model in other words: a start part that says nothing, or again what `init` says, for each rule without one.
pub fn with_start_part_everywhere(written: &Written, start: &str) -> Written {
    let with_start = |rule: &WrittenRule| WrittenRule {
        start: rule.start.clone().or_else(|| Some(start.to_string())),
        ..rule.clone()
    };
    Written { rules: written.rules.iter().map(with_start).collect(), ..written.clone() }
}
