//! What a call answers, in the words of docs/FORMAT.md.

use std::fmt;

/// Why a call is turned away: the numbers of docs/FORMAT.md, by the names and in the words of include/codremif.h.
#[derive(Clone, Copy, Debug, PartialEq, Eq, PartialOrd, Ord)]
pub enum Reason {
    LineDue,
    Count,
    Name,
    NameTwice,
    ExpressionLength,
    Byte,
    Letter,
    NotOne,
    BytesFollow,
    NoSuchSet,
    TooFewBytes,
    OddList,
    NotAnOrder,
    NotALog,
    InitUnmet,
    /// A number that this wrapper does not know: a later library may have more of them. The call is refused all the same.
    Other(u8),
}

impl Reason {
    /// The reasons that have a name, in the order of their numbers, which begin with 1.
    pub const ALL: [Reason; 15] = [
        Reason::LineDue,
        Reason::Count,
        Reason::Name,
        Reason::NameTwice,
        Reason::ExpressionLength,
        Reason::Byte,
        Reason::Letter,
        Reason::NotOne,
        Reason::BytesFollow,
        Reason::NoSuchSet,
        Reason::TooFewBytes,
        Reason::OddList,
        Reason::NotAnOrder,
        Reason::NotALog,
        Reason::InitUnmet,
    ];

    pub fn number(self) -> u8 {
        match self {
            Reason::Other(number) => number,
            named => Reason::ALL.iter().take_while(|reason| **reason != named).count() as u8 + 1,
        }
    }

    /// The reason of a number other than 0, which is no reason.
    pub fn from_number(number: u8) -> Reason {
        let named = Reason::ALL.into_iter().find(|reason| reason.number() == number);
        named.unwrap_or(Reason::Other(number))
    }

    pub fn words(self) -> &'static str {
        match self {
            Reason::LineDue => {
                "The line due here is missing, doesn't start with its key and `=`, or has no byte 10 at its end."
            }
            Reason::Count => "The count is not written as above or is outside its range.",
            Reason::Name => "A rule line's value doesn't begin with a proper name and `:`.",
            Reason::NameTwice => "An earlier rule has this name.",
            Reason::ExpressionLength => "The expression has no byte or more than 64.",
            Reason::Byte => "It has a byte other than `0`, `1`, `!`, `&`, `|`, `>`, `=`, a to g and A to G.",
            Reason::Letter => "It has a letter beyond the first N, or a capital letter in `init`, `prop` or a start part.",
            Reason::NotOne => "It isn't exactly one expression.",
            Reason::BytesFollow => "Bytes follow the last rule line (the line after it).",
            Reason::NoSuchSet => "The judged set is 2^R or more (line 0).",
            Reason::TooFewBytes => "The lent bytes are fewer than this answer's trace or list needs (line 0).",
            Reason::OddList => "A list has an odd count of bytes (line 0).",
            Reason::NotAnOrder => {
                "The order is not R bytes that have each place from 0 to R - 1 exactly once (line 0)."
            }
            Reason::NotALog => "The log is empty or has a state of 2^N or more (line 0).",
            Reason::InitUnmet => "The log's first state does not meet `init` (line 0).",
            Reason::Other(_) => "",
        }
    }
}

/// A call that was turned away; `line` is 0 where no line of the text is concerned.
#[derive(Clone, Copy, Debug, PartialEq, Eq)]
pub struct Refused {
    pub reason: Reason,
    pub line: u8,
}

impl Refused {
    pub fn new(reason: Reason, line: u8) -> Refused {
        Refused { reason, line }
    }
}

impl fmt::Display for Refused {
    fn fmt(&self, out: &mut fmt::Formatter) -> fmt::Result {
        let Refused { reason, line } = self;
        write!(out, "refused by number {}, line {line}: {}", reason.number(), reason.words())
    }
}

impl std::error::Error for Refused {}

/// What is said of a judged set.
#[derive(Clone, Copy, Debug, PartialEq, Eq)]
pub enum Verdict {
    Holds,
    /// Broken; the trace has `length` states and stands at the beginning of the lent bytes.
    Broken {
        length: usize,
    },
}

/// What is said of the states that a set reaches, beside their marks, which stand at the beginning of the lent bytes.
#[derive(Clone, Copy, Debug, PartialEq, Eq)]
pub struct Reached {
    /// How many pairs of states were tried.
    pub pairs: usize,
}

/// What is said of the one core that an order leads to, and how many sets were judged, the full set included.
#[derive(Clone, Copy, Debug, PartialEq, Eq)]
pub enum OneCore {
    /// The full set holds. The core may be set 0.
    Found { core: u16, judgements: usize },
    /// The full set is broken, so that there is no core.
    NoCore { judgements: usize },
}

/// What is said of a log of states.
#[derive(Clone, Copy, Debug, PartialEq, Eq)]
pub struct Blame {
    /// The rules that are broken anywhere in the log, as a set.
    pub broken: u16,
    pub breach: Breach,
}

/// Where a log breaks a property for the first time.
#[derive(Clone, Copy, Debug, PartialEq, Eq)]
pub enum Breach {
    /// In the state at this place; the first state has place 0.
    At(usize),
    /// In no state of the log, which has so many.
    Nowhere { length: usize },
}

impl Breach {
    /// The place of the first state that breaks a property, or the log's length if none does.
    pub fn place(self) -> usize {
        match self {
            Breach::At(place) => place,
            Breach::Nowhere { length } => length,
        }
    }
}

/// What is said of a set that is looked up in a core list and a cut list.
#[derive(Clone, Copy, Debug, PartialEq, Eq)]
pub enum Said {
    /// No listed core is inside the set, and no listed cut is apart from it.
    Unlisted,
    /// A listed core is inside the set: each of its rules is in the set.
    CoreInside,
    /// No listed core is inside the set, and a listed cut is apart from it: none of its rules is in the set.
    CutApart,
}

impl Said {
    /// All of them in the order of their numbers, which begin with 0.
    pub const ALL: [Said; 3] = [Said::Unlisted, Said::CoreInside, Said::CutApart];
}
