//! Recorded scripts, run through the archive line by line: every answer must be the recorded one.
// Sizes have 64 bits wherever this runs, and what klem prints of a flag is a number.
#[allow(clippy::cast_possible_truncation, clippy::cast_lossless)]
mod shell;

use klem::Table;
use std::{fs, path::PathBuf};

fn file(name: &str) -> Vec<u8> {
    let path = PathBuf::from(env!("CARGO_MANIFEST_DIR")).join("../../..").join(name);
    fs::read(&path).unwrap_or_else(|e| panic!("{}: {e}", path.display()))
}

fn lines(bytes: &[u8]) -> Vec<&[u8]> {
    let mut lines: Vec<&[u8]> = bytes.split(|b| *b == b'\n').collect();
    if lines.last() == Some(&&b""[..]) {
        lines.pop();
    }
    lines
}

fn brief(bytes: &[u8]) -> String {
    String::from_utf8_lossy(&bytes[..bytes.len().min(200)]).into_owned()
}

/// How many answers were compared.
fn replay<M: AsRef<[u64]> + AsMut<[u64]>>(table: Table<M>, asked: &str, told: &str, least: usize) -> usize {
    let (input, output) = (file(asked), file(told));
    let mut told = lines(&output).into_iter();
    let mut shell = shell::Shell::new(table);
    let mut compared = 0;
    for (i, line) in lines(&input).into_iter().enumerate() {
        if let Some(answer) = shell.answer(line) {
            // only `tree` answers with more lines than one
            for row in answer.split('\n') {
                let recorded = told.next().unwrap_or_else(|| panic!("{asked} line {}: no answer is recorded", i + 1));
                assert!(
                    row.as_bytes() == recorded,
                    "{asked} line {}: {}\n  here      {}\n  recorded  {}",
                    i + 1,
                    brief(line),
                    brief(row.as_bytes()),
                    brief(recorded)
                );
            }
            compared += 1;
        }
    }
    assert!(told.next().is_none(), "{asked}: answers are recorded that no line asks for");
    assert!(compared >= least, "{asked}: only {compared} answers were compared, and {least} should be");
    println!("{asked}: {compared} answers compared, all equal");
    compared
}

/// The calls that were compared with the Rust, with the port's answers (docs/DIFFERENCES.md), over a table that owns its words.
#[test]
fn compared_calls() {
    replay(Table::new(), "scripts/replay.in", "scripts/replay.out", 5_800);
}

/// What the gate runs klem on: document 01's other cases, every limit, damaged tables, and the compared calls again; over memory
/// that is lent.
#[test]
fn the_gates_script() {
    let mut words = vec![0; Table::WORDS];
    let table = Table::fresh_in(&mut words[..]).unwrap();
    replay(table, "crates/klem/stdin", "crates/klem/stdout", 6_900);
}
