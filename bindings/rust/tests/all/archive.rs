//! Plays a case over the crate, each buffer between guard pages.
use signon::{Keys, Record, Refusal, SignOn};

use crate::case::{Call, Case, Outcome, Refused};
use crate::guard::{Edge, Guarded};

/// The longest message of a case, and some.
const LONGEST: usize = 70_000;
const MOST_BUFFERS: usize = 8;

pub struct Archive {
    memory: Vec<Guarded>,
}

impl Archive {
    pub fn new() -> Archive {
        Archive { memory: (0..MOST_BUFFERS).map(|_| Guarded::new(LONGEST)).collect() }
    }

    pub fn play(&mut self, case: &Case, edge: Edge) -> Outcome {
        let mut lent: Vec<&mut [u8]> = self.memory.iter_mut().zip(&case.buffers).map(|(memory, buffer)| memory.lend(buffer, edge)).collect();
        let mut handed_back = None;
        let told = call(case, &mut lent, &mut handed_back);
        Outcome {
            told: told.map_err(|Refusal { number, buffer, place }| Refused { number: number as u8, buffer: buffer as u8, place }),
            buffers: lent.iter().map(|buffer| buffer.to_vec()).collect(),
            handed_back,
        }
    }
}

fn call(case: &Case, lent: &mut [&mut [u8]], handed_back: &mut Option<Vec<u8>>) -> Result<Vec<usize>, Refusal> {
    let one = |value: usize| vec![value];
    match (case.call, &case.numbers[..], lent) {
        (Call::Read(kind), [], [frame]) => read(kind, frame),
        (Call::Write(kind), numbers, [plain, out]) => write(kind, numbers, plain, out).map(one),
        (Call::Opening, &[round], [openings]) => {
            let opening = signon::opening(openings, round);
            *handed_back = Some(opening.unwrap_or_default().to_vec());
            signon::check_opening(openings, round).map(one)
        }
        (Call::Hash, [], [message]) => {
            let digest = signon::hash(message);
            *handed_back = Some(digest.unwrap_or_default().to_vec());
            digest.map(|_| vec![])
        }
        (Call::StandIn, &[challenge, bit], [system, public_key, lent, out]) => {
            signon::stand_in(challenge, bit, system, public_key, lent, out).map(one)
        }
        (Call::DrawPermutation, &[n], [random, out]) => signon::draw_permutation(n, random, out).map(one),
        (Call::DrawChallenges, &[rounds], [random, out]) => signon::draw_challenges(rounds, random, out).map(one),
        (Call::DrawBits, &[rounds], [random, out]) => signon::draw_bits(rounds, random, out).map(one),
        (Call::DrawChoices, &[n, rounds], [random, out]) => signon::draw_choices(n, rounds, random, out).map(one),
        (Call::MakeKey, [], [system, random, out]) => signon::make_key(system, random, out).map(one),
        (Call::CheckKey, [], [system, public_key, secret_key]) => signon::check_key(Keys { system, public_key, secret_key }).map(|()| vec![]),
        (Call::Begin, &[rounds], [record, system, public_key, secret_key, choices, out]) => {
            record_at(record).begin(rounds, Keys { system, public_key, secret_key }, choices, out).map(one)
        }
        (Call::Answer, [], [record, system, public_key, secret_key, challenges, choices, out]) => {
            record_at(record).answer_challenges(Keys { system, public_key, secret_key }, challenges, choices, out).map(one)
        }
        (Call::Open, [], [record, system, public_key, secret_key, bits, choices, out]) => {
            record_at(record).open(Keys { system, public_key, secret_key }, bits, choices, out).map(one)
        }
        (Call::GiveUp, [], [record, choices]) => {
            record_at(record).give_up(choices);
            Ok(vec![])
        }
        (Call::Verdict, &[grade], [system, public_key, commitments, challenges, first_answers, bits, openings]) => {
            signon::verdict(grade, &SignOn { system, public_key, commitments, challenges, first_answers, bits, openings }).map(one)
        }
        (call, numbers, lent) => panic!("{call:?} is not given {} numbers and {} buffers", numbers.len(), lent.len()),
    }
}

/// The two numbers of a frame, 0 for one that its kind has not.
fn read(kind: u8, frame: &[u8]) -> Result<Vec<usize>, Refusal> {
    let one = |number| vec![number, 0];
    match kind {
        1 => signon::read_system(frame).map(|read| vec![read.n, read.m]),
        2 => signon::read_public_key(frame).map(one),
        3 => signon::read_secret_key(frame).map(one),
        4 => signon::read_commitments(frame).map(one),
        5 => signon::read_challenges(frame).map(one),
        6 => signon::read_first_answers(frame).map(|read| vec![read.n, read.rounds]),
        7 => signon::read_bits(frame).map(one),
        8 => signon::read_openings(frame).map(|read| vec![read.n, read.rounds]),
        _ => panic!("no kind {kind}"),
    }
}

fn write(kind: u8, numbers: &[usize], plain: &[u8], out: &mut [u8]) -> Result<usize, Refusal> {
    match (kind, numbers) {
        (1, &[n, m]) => signon::write_system(n, m, plain, out),
        (2, &[n]) => signon::write_public_key(n, plain, out),
        (3, &[n]) => signon::write_secret_key(n, plain, out),
        (4, &[rounds]) => signon::write_commitments(rounds, plain, out),
        (5, &[rounds]) => signon::write_challenges(rounds, plain, out),
        (6, &[n, rounds]) => signon::write_first_answers(n, rounds, plain, out),
        (7, &[rounds]) => signon::write_bits(rounds, plain, out),
        (8, &[n, rounds]) => signon::write_openings(n, rounds, plain, out),
        _ => panic!("no writer of kind {kind} takes {} numbers", numbers.len()),
    }
}

/// The record that lies in lent bytes.
fn record_at(bytes: &mut [u8]) -> &mut Record {
    assert_eq!((bytes.len(), align_of::<Record>()), (size_of::<Record>(), 1));
    // SAFETY: The bytes are as many as a record has, any bytes are a record, and a record may lie anywhere; it borrows them alone.
    unsafe { &mut *bytes.as_mut_ptr().cast() }
}
