//! The cases of tests/model, as crates/replay is given them, through the archive.
use std::collections::{BTreeMap, BTreeSet};
use std::fs;

use crate::archive::Archive;
use crate::case::{body_start, hex, Call, Case, Outcome};
use crate::guard::Edge;

/// Up to so many bytes a line shows a buffer whole, and its Adler-32 above.
const SHOWN_WHOLE: usize = 40;

fn file_of_replay(name: &str) -> Vec<u8> {
    let path = format!("{}/../../crates/replay/{name}", env!("CARGO_MANIFEST_DIR"));
    fs::read(&path).unwrap_or_else(|error| panic!("{path}: {error}"))
}

/// The first bytes of a list as a big-endian number; they are taken off.
fn take_number(bytes: &mut &[u8], size: usize) -> usize {
    take(bytes, size).iter().fold(0, |number, &byte| number << 8 | usize::from(byte))
}

fn take<'a>(bytes: &mut &'a [u8], size: usize) -> &'a [u8] {
    let (front, rest) = bytes.split_at(size);
    *bytes = rest;
    front
}

/// The form is told at the top of tests/model/cases.py.
fn cases() -> Vec<Case> {
    let (input, calls) = (file_of_replay("stdin"), Call::all());
    let (mut left, mut cases) = (&input[..], vec![]);
    while !left.is_empty() {
        let size = take_number(&mut left, 4);
        let mut body = take(&mut left, size);
        let call = calls[take_number(&mut body, 1) - 1];
        let count = take_number(&mut body, 1);
        let numbers = (0..count).map(|_| take_number(&mut body, 8)).collect();
        let mut buffers = vec![];
        while !body.is_empty() {
            let size = take_number(&mut body, 4);
            buffers.push(take(&mut body, size).to_vec());
        }
        cases.push(Case { call, numbers, buffers });
    }
    cases
}

/// What has to come of each case: a line without its first two words, index and call.
fn lines() -> Vec<String> {
    let printed = String::from_utf8(file_of_replay("stdout")).unwrap();
    printed.lines().map(|line| line.splitn(3, ' ').nth(2).unwrap().to_string()).collect()
}

fn line_of(call: Call, outcome: &Outcome) -> String {
    let mut words = match (&outcome.told, call) {
        // The archive leaves it to the kind where the rest of a body starts, and tells where an opening does.
        (Ok(values), Call::Read(kind)) => vec!["done".to_string(), words_of(values), body_start(kind).to_string()],
        (Ok(_), Call::Opening) => vec!["done".to_string()],
        (Ok(values), _) => vec!["done".to_string(), words_of(values)],
        (Err(refused), _) => vec!["refused".to_string(), words_of(&[usize::from(refused.number), usize::from(refused.buffer), refused.place])],
    };
    words.extend(call.written().iter().map(|&place| shown(&outcome.buffers[place])));
    words.extend(outcome.handed_back.iter().map(|bytes| shown(bytes)));
    words.retain(|word| !word.is_empty());
    words.join(" ")
}

fn words_of(numbers: &[usize]) -> String {
    numbers.iter().map(usize::to_string).collect::<Vec<_>>().join(" ")
}

fn shown(bytes: &[u8]) -> String {
    if bytes.len() <= SHOWN_WHOLE {
        format!("={}", hex(bytes))
    } else {
        format!("~{:08x}", adler32(bytes))
    }
}

/// RFC 1950
fn adler32(bytes: &[u8]) -> u32 {
    let (a, b) = bytes.iter().fold((1, 0), |(a, b), &byte| {
        let a = (a + u32::from(byte)) % 65_521;
        (a, (b + a) % 65_521)
    });
    b << 16 | a
}

/// What comes of a case has to be its line; buffers that are not for writing have to stay as they were.
fn hold(index: usize, case: &Case, line: &str, outcome: &Outcome) {
    assert_eq!(line_of(case.call, outcome), line, "case {index}: {case:?}");
    for (place, buffer) in case.buffers.iter().enumerate() {
        assert!(case.call.written().contains(&place) || outcome.buffers[place] == *buffer, "case {index}: buffer {place} changed");
    }
}

#[test]
fn every_case_tells_what_replay_tells() {
    let (mut archive, cases, lines) = (Archive::new(), cases(), lines());
    assert_eq!(cases.len(), lines.len());
    assert!(Call::all().iter().all(|call| cases.iter().any(|case| case.call == *call)), "a call has no case");
    for (index, (case, line)) in cases.iter().zip(&lines).enumerate() {
        for edge in [Edge::Front, Edge::Back] {
            hold(index, case, line, &archive.play(case, edge));
        }
    }
}

/// Begin, answer and open with one record, which goes on as each call leaves it: wherever a case starts from the record, the choices and the
/// keys that another has left, the call is made on what the archive left, and what comes has to be that case's line.
#[test]
fn whole_sign_ons_tell_what_replay_tells() {
    let mut archive = Archive::new();
    let expected: BTreeMap<Case, String> = cases().into_iter().zip(lines()).collect();
    let (mut places, mut rounds) = (BTreeSet::new(), BTreeSet::new());
    for (begin, line) in expected.iter().filter(|(case, line)| case.call == Call::Begin && line.starts_with("done")) {
        let begun = archive.play(begin, Edge::Back);
        assert_eq!(line_of(Call::Begin, &begun), *line);
        for (answer, line) in followers(&expected, Call::Answer, &begun.buffers[..5]) {
            let answered = archive.play(answer, Edge::Back);
            assert_eq!(line_of(Call::Answer, &answered), *line);
            let left = [&answered.buffers[..4], &answered.buffers[5..6]].concat();
            for (open, line) in followers(&expected, Call::Open, &left) {
                let opened = archive.play(open, Edge::Back);
                assert_eq!(line_of(Call::Open, &opened), *line);
                places.insert(opened.buffers[0][1]);
                rounds.insert(opened.buffers[0][3]);
            }
        }
    }
    assert!(places.into_iter().eq(2..=64) && rounds.into_iter().eq(1..=64), "no whole sign-on of every n and every N");
}

/// The cases of a call that start from a record, keys and choices.
fn followers<'a>(cases: &'a BTreeMap<Case, String>, call: Call, left: &'a [Vec<u8>]) -> impl Iterator<Item = (&'a Case, &'a String)> {
    cases.iter().filter(move |(case, _)| case.call == call && case.buffers[..4] == left[..4] && case.buffers[5] == left[4])
}
