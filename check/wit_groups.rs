//! Prints what files of WIT are as a group. Each group stands behind the number of its files, each file behind its path and
//! the number of its bytes, each with a newline.
#![allow(dead_code, unused_imports, unused_labels, unused_macros)]
mod made;
mod shim;

use made::wit_data::SourceMap;
use made::wit_groups::{GroupFault, read_group};
use made::wit_json::group_to_json;
use std::io::{BufRead, Read, Write};

fn line(input: &mut impl BufRead) -> Option<String> {
    let mut line = String::new();
    if input.read_line(&mut line).expect("input") == 0 {
        return None;
    }
    Some(line.trim_end_matches('\n').to_string())
}

fn number(input: &mut impl BufRead) -> Option<usize> {
    line(input)?.parse().ok()
}

/// The files of the next group.
fn files(input: &mut impl BufRead) -> Option<SourceMap> {
    let count = number(input)?;
    let mut map = SourceMap::new();
    for _ in 0..count {
        let path = line(input)?;
        let mut text = vec![0; number(input)?];
        input.read_exact(&mut text).expect("a text");
        let text = String::from_utf8(text).expect("UTF-8");
        map.push_str(&path, shim::String::from_str(&text).expect("memory")).expect("positions");
    }
    Some(map)
}

fn main() {
    let stdin = std::io::stdin();
    let mut input = stdin.lock();
    let mut output = std::io::BufWriter::new(std::io::stdout().lock());
    while let Some(map) = files(&mut input) {
        match read_group(map) {
            Ok(group) => writeln!(output, "{}", group_to_json(&group).expect("memory")),
            Err(GroupFault::Text { span, kind, .. }) if span.is_known() => {
                writeln!(output, "fault {}-{} {kind}", span.start(), span.end())
            }
            Err(fault) => writeln!(output, "fault - {fault}"),
        }
        .expect("output");
    }
}
