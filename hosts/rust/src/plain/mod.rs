//! The plain search: the request's text word by word (docs/FORMAT.md says the same), with no thought for speed beyond a table of pair masks.
//!
//! * [`expression`]: what an expression is, how it is read, its value.
//! * [`text`]: how a model text is read, and the numbers 1 to 9.
//! * [`system`]: the transition system of a model: the start states and the steps of a set, bad states, reached states.
//! * [`trace`]: the shortest run to a bad state, the first of its length.
//! * [`reached`]: the reached states of a set, in the order of marking, and the pairs that are tried for them.
//! * [`sets`]: every rule set judged; cores, cuts, MUST, MAY and the irrelevant rules by definition.
//! * [`one_core`]: one core in the caller's order, and the judgements that it takes.
//! * [`blame`]: the rules that are broken in a log, and the first state of it that breaks a property.
//! * [`answers`]: the calls that read a text.
//! * [`lookup`]: the calls that read none, but a core list and a cut list.
//! * [`report`]: the report, as bytes.

pub mod answers;
pub mod blame;
pub mod expression;
pub mod lookup;
pub mod one_core;
pub mod reached;
pub mod report;
pub mod sets;
pub mod system;
pub mod text;
pub mod trace;
