//! What holds of each input, whatever it is. What doesn't is told by a panic, as all that the library itself notices.
use serde::de::IgnoredAny;
use std::panic;
use std::slice;
use std::sync::Mutex;
use wit_resolve_graph::json::{Document, Order, ResolveParts};
use wit_resolve_graph::programs::calls;
use wit_resolve_graph::{Items, Resolve};

/// A call from bytes to bytes, as the library for C has it.
type Call = fn(&[u8], &mut [u8], &mut usize) -> u32;

/// How an answer to a command begins that came to nothing.
const FAILED: [&str; 3] = ["refused ", "no world", "no package"];
static TOLD: Mutex<String> = Mutex::new(String::new());

/// Has panics remembered, and not printed.
pub fn listen() {
    panic::set_hook(Box::new(|info| {
        *TOLD.lock().expect("what was told") = info.to_string();
    }));
}

/// What an input breaks, or None.
pub fn fault_of(input: &[u8]) -> Option<String> {
    let run = || {
        check_script(input);
        check_document(input);
    };
    panic::catch_unwind(run).err()?;
    Some(TOLD.lock().expect("what was told").clone())
}

/// The status of a call and what it writes; with too little room it writes nothing and tells how much it needs.
fn answer_of(call: Call, input: &[u8]) -> (u32, String) {
    let (mut output, mut needed) = (Vec::new(), 0);
    let mut status = call(input, &mut output, &mut needed);
    if status == calls::OUTPUT_TOO_SMALL {
        output.resize(needed, 0);
        status = call(input, &mut output, &mut needed);
    }
    assert_eq!(needed, output.len(), "what is needed");
    (status, String::from_utf8(output).expect("an answer in UTF-8"))
}

/// Asks for the status that an input has to have, and answers its text where it is one and what it is answered.
fn asked(call: Call, input: &[u8]) -> Option<(&str, bool, String)> {
    let (status, answer) = answer_of(call, input);
    let Ok(text) = str::from_utf8(input) else {
        assert_eq!(
            (status, answer.as_str()),
            (calls::INPUT_NOT_UTF8, ""),
            "of what isn't UTF-8"
        );
        return None;
    };
    assert!(
        [calls::UNDERSTOOD, calls::NOT_UNDERSTOOD].contains(&status),
        "status {status}"
    );
    Some((text, status == calls::UNDERSTOOD, answer))
}

// ---- scripts

fn check_script(input: &[u8]) {
    let Some((text, is_understood, answers)) = asked(calls::execute, input) else {
        return;
    };
    let (_, is_explained, explained) = asked(calls::explain, input).expect("a text");
    assert_eq!(is_understood, is_explained, "understood by `execute` and by `explain`");
    if is_understood {
        assert!(answers.is_empty() || answers.ends_with('\n'), "whole lines");
        let has_failed = answers.lines().any(|line| FAILED.iter().any(|it| line.starts_with(it)));
        assert_eq!(has_failed, !explained.is_empty(), "something is to be explained");
        check_beginning(text, &answers);
    } else {
        let number = answers
            .strip_prefix("line ")
            .and_then(|it| it.strip_suffix(": not understood\n"));
        let number: usize = number
            .and_then(|it| it.parse().ok())
            .expect("a line that isn't understood");
        assert!(
            (1..=text.split('\n').count() + 1).contains(&number),
            "line {number} of the script"
        );
        assert!(explained.starts_with("line "), "why it isn't understood");
    }
}

/// What a beginning of a script is answered is a beginning of the answers.
fn check_beginning(text: &str, answers: &str) {
    let lines: Vec<&str> = text.split_inclusive('\n').collect();
    let beginning = lines[..lines.len() / 2].concat();
    let (status, beginning) = answer_of(calls::execute, beginning.as_bytes());
    if status == calls::UNDERSTOOD {
        assert!(
            answers.starts_with(&beginning),
            "a beginning is answered {beginning:?}, all {answers:?}"
        );
    }
}

// ---- documents

fn check_document(input: &[u8]) {
    let Some((text, is_understood, answer)) = asked(calls::carry_out, input) else {
        return;
    };
    serde_json::from_str::<IgnoredAny>(&answer).expect("one JSON document");
    if !is_understood {
        return check_fault(text, &answer);
    }
    let document = Document::from_json(text).expect("a document");
    let (resolve, replies) = document.carry_out().expect("a valid graph");
    let wanted = format!(
        "{{\"replies\":[{}],\"resolve\":{}}}",
        replies.join(","),
        resolve.to_json()
    );
    assert_eq!(answer, wanted, "the library's answer and its parts");
    check_graph(&resolve);
    check_steps(text, &resolve, &replies);
}

/// A fault has its place in the text.
fn check_fault(text: &str, answer: &str) {
    let told: serde_json::Value = serde_json::from_str(answer).expect("one JSON document");
    let number = |name: &str| told["fault"][name].as_u64().expect("a number") as usize;
    let offset = number("offset");
    assert!(text.is_char_boundary(offset), "byte {offset} of the text");
    let before = &text[..offset];
    let line = before.rsplit('\n').next().expect("a line");
    let place = (before.matches('\n').count() + 1, line.chars().count() + 1);
    assert_eq!((number("line"), number("column")), place, "line and column");
    // it says what was expected where a text isn't JSON
    assert_ne!(told["fault"]["expected"], "a JSON value and nothing else");
    let by_library = Document::from_json(text).map(|document| document.carry_out().is_some());
    assert_ne!(by_library, Ok(true), "a document with a fault");
}

/// A graph goes in again as it came out, by the project's JSON and by serde.
fn check_graph(resolve: &Resolve) {
    let text = resolve.to_json();
    let again = Resolve::from_json(&text).expect("what came out goes in");
    assert_eq!(again.to_json(), text, "written again");
    assert_same(&again, resolve);
    assert_eq!(
        serde_json::to_string(resolve).expect("a text"),
        text,
        "written by serde"
    );
    let again: Resolve = serde_json::from_str(&text).expect("read by serde");
    assert_same(&again, resolve);
}

/// All but the files is the same.
fn assert_same(one: &Resolve, other: &Resolve) {
    assert_eq!(one.graph(), other.graph(), "the graph");
    assert_eq!(one.features(), other.features(), "the features");
    assert_eq!(one.track_rule(), other.track_rule(), "the rule of tracks");
}

fn parts_of(resolve: Resolve) -> ResolveParts {
    ResolveParts {
        graph: resolve.graph().clone(),
        features: resolve.features().clone(),
        source_map: resolve.source_map().clone(),
        track_rule: resolve.track_rule(),
    }
}

/// Each command alone, on the graph that the ones before it left, comes to the same; the graph is valid in between, and one
/// that is refused leaves it.
fn check_steps(text: &str, wanted: &Resolve, replies: &[String]) {
    let document = Document::from_json(text).expect("a document");
    let begin = Document {
        resolve: document.resolve,
        commands: Items::new(),
    };
    let (mut resolve, _) = begin.carry_out().expect("a valid graph");
    for (command, reply) in Vec::from(document.commands).into_iter().zip(replies) {
        let (after, told) = step(&resolve, command);
        assert_eq!(slice::from_ref(reply), told, "the reply to a command alone");
        if reply.starts_with("{\"refused\":") || reply.starts_with("{\"not-shaped\":") {
            assert_same(&after, &resolve);
        }
        resolve = after;
    }
    assert_same(&resolve, wanted);
    assert_eq!(resolve.to_json(), wanted.to_json(), "by all commands and one by one");
}

fn step(resolve: &Resolve, command: Order) -> (Resolve, Vec<String>) {
    let commands = Items::from(vec![command]);
    let document = Document {
        resolve: Some(parts_of(resolve.clone())),
        commands,
    };
    document.carry_out().expect("a valid graph")
}
