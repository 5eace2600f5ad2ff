//! Changes of inputs: of bytes, and of the lines, the words and the JSON values that an input has.
use crate::random::Random;
use std::ops::Range;

/// The most bytes that an input has.
pub const LONGEST: usize = 6000;
/// Words that are rare, or on an edge.
const WORDS: [&str; 26] = [
    "0",
    "1",
    "2",
    "-1",
    "4294967295",
    "4294967296",
    "18446744073709551616",
    "1e9",
    "0.1",
    "null",
    "true",
    "\"\"",
    "\\u0000",
    "\\ud800",
    "é",
    "\r\n",
    "%",
    "interface-0",
    "@1.0.0",
    "@0.2.1-rc.1",
    "@since=1.0.0",
    "@unstable=f",
    " ",
    "#",
    "list<u8>",
    "push\n",
];

/// What an input consists of.
#[derive(Clone, Copy, PartialEq)]
enum Sort {
    Line,
    Word,
    Value,
}

impl Sort {
    fn parts(self, text: &[u8]) -> Vec<Range<usize>> {
        match self {
            Sort::Line => lines(text),
            Sort::Word => words(text),
            Sort::Value => values(text),
        }
    }

    /// What stands between two parts.
    fn separator(self) -> &'static [u8] {
        match self {
            Sort::Line => b"",
            Sort::Word => b" ",
            Sort::Value => b",",
        }
    }
}

/// Changes an input at one place or at some, with parts of another one.
pub fn changed(random: &mut Random, input: &[u8], other: &[u8]) -> Vec<u8> {
    let mut text = input.to_vec();
    let more = *random.of(&[0, 0, 1, 3]);
    for _ in 0..=more {
        let sort = *random.of(&[Sort::Line, Sort::Word, Sort::Value]);
        match random.below(10) {
            0 => change_byte(random, &mut text),
            1 => put_word(random, &mut text),
            2 => join(random, &mut text, other),
            3 => rename(random, &mut text, other),
            _ => change_part(random, &mut text, other, sort),
        }
    }
    text.truncate(LONGEST);
    text
}

fn change_byte(random: &mut Random, text: &mut Vec<u8>) {
    let place = random.below(text.len() + 1);
    match random.below(3) {
        0 if place < text.len() => drop(text.remove(place)),
        1 if place < text.len() => text[place] ^= 1 << random.below(8),
        _ => text.insert(place, random.below(256) as u8),
    }
}

/// Puts a word of `WORDS` before or behind another one, or in its place.
fn put_word(random: &mut Random, text: &mut Vec<u8>) {
    let parts = words(text);
    if !parts.is_empty() {
        let Range { start, end } = random.of(&parts).clone();
        let place = random.of(&[start..start, end..end, start..end]).clone();
        text.splice(place, random.of(&WORDS).bytes());
    }
}

/// Puts a word of another input wherever one word stands.
fn rename(random: &mut Random, text: &mut Vec<u8>, other: &[u8]) {
    let (mut places, others) = (words(text), words(other));
    if places.is_empty() || others.is_empty() {
        return;
    }
    let old = text[random.of(&places).clone()].to_vec();
    let new = &other[random.of(&others).clone()];
    places.retain(|it| text[it.clone()] == old);
    for place in places.into_iter().rev() {
        text.splice(place, new.iter().copied());
    }
}

/// Has the back of another input follow the front of one.
fn join(random: &mut Random, text: &mut Vec<u8>, other: &[u8]) {
    let (front, back) = (lines(text), lines(other));
    if !front.is_empty() && !back.is_empty() {
        text.truncate(random.of(&front).end);
        text.extend_from_slice(&other[random.of(&back).start..]);
    }
}

/// Takes a part out, repeats one, or puts one of the same input or of another one before it or in its place.
fn change_part(random: &mut Random, text: &mut Vec<u8>, other: &[u8], sort: Sort) {
    let (parts, others) = (sort.parts(text), sort.parts(other));
    if parts.is_empty() {
        return;
    }
    let place = random.of(&parts).clone();
    let part = match others.len() {
        1.. if random.below(2) == 0 => other[random.of(&others).clone()].to_vec(),
        _ => text[random.of(&parts).clone()].to_vec(),
    };
    let start = place.start;
    match random.below(4) {
        0 => drop(text.drain(with_separator(text, place, sort))),
        1 => drop(text.splice(start..start, [&part, sort.separator()].concat())),
        2 => drop(text.splice(start..start, [&text[place], sort.separator()].concat())),
        _ => drop(text.splice(place, part)),
    }
}

/// A part with the separator that follows it, or else with the one before it.
fn with_separator(text: &[u8], part: Range<usize>, sort: Sort) -> Range<usize> {
    let separator = sort.separator();
    if text[part.end..].starts_with(separator) {
        part.start..part.end + separator.len()
    } else if text[..part.start].ends_with(separator) {
        part.start - separator.len()..part.end
    } else {
        part
    }
}

/// The lines, each with its end.
pub fn lines(text: &[u8]) -> Vec<Range<usize>> {
    let mut start = 0;
    let ends = text.split_inclusive(|it| *it == b'\n').map(|it| {
        start += it.len();
        start - it.len()..start
    });
    ends.collect()
}

fn is_of_word(byte: u8) -> bool {
    !byte.is_ascii_whitespace() && !b",:;()<>[]{}\"=/@".contains(&byte)
}

/// Runs of bytes that no space and no bracket or the like parts.
pub fn words(text: &[u8]) -> Vec<Range<usize>> {
    let mut start = 0;
    let runs = text.split(|it| !is_of_word(*it)).map(|it| {
        start += it.len() + 1;
        start - it.len() - 1..start - 1
    });
    runs.filter(|it| !it.is_empty()).collect()
}

/// Where the JSON string, number or word ends that begins here.
fn scalar_end(text: &[u8], start: usize) -> usize {
    if text[start] != b'"' {
        return text[start..]
            .iter()
            .position(|it| !is_of_word(*it))
            .map_or(text.len(), |it| start + it);
    }
    let mut at = start + 1;
    while at < text.len() && text[at] != b'"' {
        at += if text[at] == b'\\' { 2 } else { 1 };
    }
    text.len().min(at + 1)
}

/// The values of JSON in a text, and the members of its objects.
pub fn values(text: &[u8]) -> Vec<Range<usize>> {
    let (mut found, mut open, mut key, mut at) = (Vec::new(), Vec::new(), None, 0);
    while at < text.len() {
        let (start, of_key, end) = match text[at] {
            b'{' | b'[' => {
                open.push((at, key.take()));
                at += 1;
                continue;
            }
            b'}' | b']' => match open.pop() {
                Some((start, of_key)) => (start, of_key, at + 1),
                None => (at, None, at + 1),
            },
            byte if byte == b'"' || is_of_word(byte) => (at, key.take(), scalar_end(text, at)),
            _ => {
                at += 1;
                continue;
            }
        };
        found.push(start..end);
        found.extend(of_key.map(|key| key..end));
        at = end;
        if text[at..].starts_with(b":") {
            key = Some(start);
        }
    }
    found
}
