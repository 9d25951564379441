//! Damaged texts: bytes dropped, put in and changed, lines swapped and repeated, cut off, and the faults that chance
//! alone would seldom make, among them too many, missing and misplaced property lines, and start parts of every kind.

use std::ops::Range;

use super::generator::Random;

type Damage = fn(&mut Random, Vec<u8>) -> Vec<u8>;

const DAMAGES: [Damage; 22] = [
    drop_byte,
    put_in_byte,
    change_byte,
    swap_lines,
    repeat_line,
    drop_line,
    cut_off,
    append_bytes,
    change_count,
    repeat_name,
    lengthen_expression,
    empty_value,
    capital_letter,
    add_start_part,
    drop_start_parts,
    exchange_parts,
    repeat_property,
    five_properties,
    drop_properties,
    misplace_property,
    end_in_property,
    change_property_key,
];

/// The text with one to three damages; it may still be accepted.
pub fn damaged(random: &mut Random, text: &[u8]) -> Vec<u8> {
    let mut damaged = text.to_vec();
    for _ in 0..random.pick(&[1, 1, 1, 2, 3]) {
        let damage = random.pick(&DAMAGES);
        damaged = damage(random, damaged);
    }
    damaged
}

/// Any byte, but mostly one that means something somewhere in a text.
fn byte(random: &mut Random) -> u8 {
    if random.percent(10) {
        return random.below(256) as u8;
    }
    random.pick(b"\n\n01123456789:=!&|>abcdefghzABCDEFGH \r\0")
}

fn drop_byte(random: &mut Random, mut text: Vec<u8>) -> Vec<u8> {
    if !text.is_empty() {
        text.remove(random.below(text.len()));
    }
    text
}

fn put_in_byte(random: &mut Random, mut text: Vec<u8>) -> Vec<u8> {
    text.insert(random.below(text.len() + 1), byte(random));
    text
}

fn change_byte(random: &mut Random, mut text: Vec<u8>) -> Vec<u8> {
    if !text.is_empty() {
        let place = random.below(text.len());
        text[place] = byte(random);
    }
    text
}

fn cut_off(random: &mut Random, mut text: Vec<u8>) -> Vec<u8> {
    text.truncate(random.below(text.len() + 1));
    text
}

fn append_bytes(random: &mut Random, mut text: Vec<u8>) -> Vec<u8> {
    let count = random.pick(&[1, 1, 2, 10, 100, 2000]);
    text.extend((0..count).map(|_| byte(random)));
    text
}

/// The lines with their ends.
fn lines(text: &[u8]) -> Vec<Vec<u8>> {
    text.split_inclusive(|byte| *byte == b'\n').map(<[u8]>::to_vec).collect()
}

fn swap_lines(random: &mut Random, text: Vec<u8>) -> Vec<u8> {
    let mut lines = lines(&text);
    if lines.len() >= 2 {
        let (one, two) = (random.below(lines.len()), random.below(lines.len()));
        lines.swap(one, two);
    }
    lines.concat()
}

fn repeat_line(random: &mut Random, text: Vec<u8>) -> Vec<u8> {
    let mut lines = lines(&text);
    if !lines.is_empty() {
        let line = lines[random.below(lines.len())].clone();
        lines.insert(random.below(lines.len() + 1), line);
    }
    lines.concat()
}

fn drop_line(random: &mut Random, text: Vec<u8>) -> Vec<u8> {
    let mut lines = lines(&text);
    if !lines.is_empty() {
        lines.remove(random.below(lines.len()));
    }
    lines.concat()
}

/// Another count in the first or second line, mostly an improper one.
fn change_count(random: &mut Random, text: Vec<u8>) -> Vec<u8> {
    const COUNTS: [&str; 14] =
        ["0", "8", "9", "17", "01", "007", "20", "", "1 ", "+1", "10", "16", "5", "4294967297"];
    let place = random.below(2);
    change_line(text, place, |line| {
        let kept = after_key(line);
        line.splice(kept.., random.pick(&COUNTS).bytes().chain([b'\n']));
    })
}

/// The name of one rule line is given to another.
fn repeat_name(random: &mut Random, text: Vec<u8>) -> Vec<u8> {
    let lines = lines(&text);
    let rules = places_of(&lines, RULE);
    if rules.len() < 2 {
        return text;
    }
    let from = &lines[random.pick(&rules)];
    let name = from[..after_name(from)].to_vec();
    change_line(text, random.pick(&rules), |line| {
        line.splice(..after_name(line), name);
    })
}

/// An expression of just 64 bytes, or of some more, by double negation and the like.
fn lengthen_expression(random: &mut Random, text: Vec<u8>) -> Vec<u8> {
    let place = random.below(lines(&text).len() + 1);
    change_line(text, place, |line| {
        let mut part = random_expression(random, line);
        let length = random.pick(&[63, 64, 65, 66, 100]);
        while part.len() < length {
            line.insert(part.start, b'!');
            part.end += 1;
        }
    })
}

/// Nothing after a key, a name or the `:` of a start part, or nothing where the step part was.
fn empty_value(random: &mut Random, text: Vec<u8>) -> Vec<u8> {
    let place = random.below(lines(&text).len() + 1);
    change_line(text, place, |line| {
        let part = if random.percent(80) { random_expression(random, line) } else { value(line) };
        line.drain(part);
    })
}

/// A capital letter in `init`, a property or a start part, in place of the first letter there.
fn capital_letter(random: &mut Random, text: Vec<u8>) -> Vec<u8> {
    let lines = lines(&text);
    let with_start_part = places_of(&lines, RULE).into_iter().filter(|place| has_start_part(&lines[*place]));
    let places =
        [places_of(&lines, b"init="), places_of(&lines, PROPERTY), with_start_part.collect()].concat();
    if places.is_empty() {
        return text;
    }
    change_line(text, random.pick(&places), |line| {
        let (first, start_part) = expressions(line);
        let part = start_part.unwrap_or(first);
        if let Some(letter) = line[part].iter_mut().find(|byte| byte.is_ascii_lowercase()) {
            letter.make_ascii_uppercase();
        }
    })
}

const RULE: &[u8] = b"rule=";

/// A start part at the end of a rule line, mostly an improper one; where there is one already, its `:` is the third.
fn add_start_part(random: &mut Random, text: Vec<u8>) -> Vec<u8> {
    const STARTS: [&str; 14] =
        [":1", ":!a", ":|a!a", ":", "::", ":A", ":!B", ":g", ":h", ": a", ":&a", ":aa", ":a:1", ":1\r"];
    change_rule_line(random, text, |random, line| {
        let end = line.len() - 1;
        line.splice(end..end, random.pick(&STARTS).bytes());
    })
}

/// No rule has one any more.
fn drop_start_parts(_: &mut Random, text: Vec<u8>) -> Vec<u8> {
    let mut lines = lines(&text);
    for line in lines.iter_mut().filter(|line| line.starts_with(RULE) && has_start_part(line)) {
        let (step, _) = expressions(line);
        line.splice(step.end.., [b'\n']);
    }
    lines.concat()
}

/// The start part stands before the step part.
fn exchange_parts(random: &mut Random, text: Vec<u8>) -> Vec<u8> {
    change_rule_line(random, text, |_, line| {
        if let (step, Some(start)) = expressions(line) {
            let exchanged = [&line[start.clone()], b":", &line[step.clone()]].concat();
            line.splice(step.start..start.end, exchanged);
        }
    })
}

fn change_rule_line(
    random: &mut Random,
    text: Vec<u8>,
    change: impl FnOnce(&mut Random, &mut Vec<u8>),
) -> Vec<u8> {
    let places = places_of(&lines(&text), RULE);
    if places.is_empty() {
        return text;
    }
    change_line(text, random.pick(&places), |line| change(random, line))
}

const PROPERTY: &[u8] = b"prop=";

/// The lines and one of the places of a property line; none if there is no such line.
fn property_line(random: &mut Random, text: &[u8]) -> Option<(Vec<Vec<u8>>, usize)> {
    let lines = lines(text);
    let places = places_of(&lines, PROPERTY);
    if places.is_empty() {
        return None;
    }
    Some((lines, random.pick(&places)))
}

/// A property line once more, right after it: of one to four there are two to five then.
fn repeat_property(random: &mut Random, text: Vec<u8>) -> Vec<u8> {
    let Some((mut lines, place)) = property_line(random, &text) else { return text };
    lines.insert(place, lines[place].clone());
    lines.concat()
}

/// A property line again and again, until there are five of them.
fn five_properties(random: &mut Random, text: Vec<u8>) -> Vec<u8> {
    let Some((mut lines, place)) = property_line(random, &text) else { return text };
    while places_of(&lines, PROPERTY).len() < 5 {
        lines.insert(place, lines[place].clone());
    }
    lines.concat()
}

/// One property line less, or none left.
fn drop_properties(random: &mut Random, text: Vec<u8>) -> Vec<u8> {
    let Some((mut lines, place)) = property_line(random, &text) else { return text };
    if random.percent(50) {
        lines.remove(place);
    } else {
        lines.retain(|line| !line.starts_with(PROPERTY));
    }
    lines.concat()
}

/// A property line at another place: before `init`, between the rules, at the end.
fn misplace_property(random: &mut Random, text: Vec<u8>) -> Vec<u8> {
    let Some((mut lines, place)) = property_line(random, &text) else { return text };
    let line = lines.remove(place);
    lines.insert(random.below(lines.len() + 1), line);
    lines.concat()
}

/// The text ends in a property line, mostly with nothing missing there but its byte 10.
fn end_in_property(random: &mut Random, text: Vec<u8>) -> Vec<u8> {
    let Some((mut lines, place)) = property_line(random, &text) else { return text };
    lines.truncate(place + 1);
    let longest = lines[place].len() - 1;
    let kept = if random.percent(60) { longest } else { random.below(longest + 1) };
    lines[place].truncate(kept);
    lines.concat()
}

/// Another key, or nearly the same.
fn change_property_key(random: &mut Random, text: Vec<u8>) -> Vec<u8> {
    const KEYS: [&str; 9] =
        ["prop", "prop:", "prop =", " prop=", "Prop=", "props=", "pro=", "rule=", "init="];
    let Some((mut lines, place)) = property_line(random, &text) else { return text };
    lines[place].splice(..PROPERTY.len(), random.pick(&KEYS).bytes());
    lines.concat()
}

/// Where the lines with this key stand; the first line is 0.
fn places_of(lines: &[Vec<u8>], key: &[u8]) -> Vec<usize> {
    (0..lines.len()).filter(|place| lines[*place].starts_with(key)).collect()
}

fn change_line(text: Vec<u8>, place: usize, change: impl FnOnce(&mut Vec<u8>)) -> Vec<u8> {
    let mut lines = lines(&text);
    if let Some(line) = lines.get_mut(place) {
        change(line);
    }
    lines.concat()
}

fn after_key(line: &[u8]) -> usize {
    line.iter().position(|byte| *byte == b'=').map_or(0, |place| place + 1)
}

fn after_name(line: &[u8]) -> usize {
    line.iter().position(|byte| *byte == b':').map_or(0, |place| place + 1)
}

/// Where the expression of a line stands, or the step part of a rule; and where its start part stands, if it has one.
fn expressions(line: &[u8]) -> (Range<usize>, Option<Range<usize>>) {
    let Range { start, end } = value(line);
    let first = after_name(line).clamp(start, end);
    match line[first..end].iter().position(|byte| *byte == b':') {
        Some(length) => (first..first + length, Some(first + length + 1..end)),
        None => (first..end, None),
    }
}

/// Where that stands which follows the key.
fn value(line: &[u8]) -> Range<usize> {
    let end = line.len() - 1;
    after_key(line).min(end)..end
}

fn has_start_part(line: &[u8]) -> bool {
    expressions(line).1.is_some()
}

fn random_expression(random: &mut Random, line: &[u8]) -> Range<usize> {
    match expressions(line) {
        (_, Some(start_part)) if random.percent(50) => start_part,
        (first, _) => first,
    }
}
