//! The report, as docs/FORMAT.md, "The report", has it.

use super::answers::Answers;
use super::system::TransitionSystem;
use super::text::{self, Model};
use super::trace::trace;

/// No more bytes of the input than these are judged.
pub const JUDGED: usize = 4096;

/// The whole report on an input: every byte that the report program prints.
pub fn report(input: &[u8]) -> Vec<u8> {
    let judged = &input[..input.len().min(JUDGED)];
    let lines = match text::read(judged) {
        Ok(model) => of_accepted(&model),
        Err(refused) => {
            vec![format!("refused={}", refused.reason.number()), format!("line={}", refused.line)]
        }
    };
    lines.iter().flat_map(|line| line.bytes().chain([10])).collect()
}

/// The lines, without their ends.
fn of_accepted(model: &Model) -> Vec<String> {
    let answers = Answers::of_model(model);
    let by_property = |place| verdict(&answers.system.by_property(place));
    let mut lines: Vec<String> = (0..model.properties.len()).flat_map(by_property).collect();
    lines.push(format!("must={}", names(model, answers.must)));
    lines.push(format!("may={}", names(model, answers.may)));
    lines.push(format!("irr={}", names(model, answers.irrelevant)));
    lines.push(format!("cores={}", answers.cores.len()));
    lines.extend(answers.cores.iter().map(|core| format!("core={}", names(model, *core))));
    lines.push(format!("cuts={}", answers.cuts.len()));
    lines.extend(answers.cuts.iter().map(|cut| format!("cut={}", names(model, *cut))));
    lines
}

/// The verdict on the full set, and the states of its trace if it is broken.
fn verdict(system: &TransitionSystem) -> Vec<String> {
    match trace(system, system.full_set()) {
        None => vec!["verdict=holds".to_string()],
        Some(run) => {
            let states = run.iter().map(|state| format!("state={state}"));
            ["verdict=broken".to_string()].into_iter().chain(states).collect()
        }
    }
}

/// A set as names in the model's order with commas; the empty set is `-`.
pub fn names(model: &Model, set: u16) -> String {
    let in_set = model.rules.iter().enumerate().filter(|(place, _)| set >> place & 1 == 1);
    let names: Vec<_> = in_set.map(|(_, rule)| String::from_utf8_lossy(&rule.name)).collect();
    if names.is_empty() {
        return "-".to_string();
    }
    names.join(",")
}
