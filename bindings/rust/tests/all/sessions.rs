//! The session: whole sign-ons, and what is left of one that ends early.
use std::panic::{catch_unwind, AssertUnwindSafe};

use signon::*;

use crate::random::Random;

const N: usize = 16;
const M: usize = 7;
const ROUNDS: usize = 20;

/// A system, a key, and choices for one sign-on.
struct Card {
    system: Vec<u8>,
    pair: Vec<u8>,
    choices: Vec<u8>,
}

impl Card {
    fn new(random: &mut Random) -> Card {
        let entries: Vec<u8> = (0..M * (N - M)).map(|_| random.below(251) as u8).collect();
        let mut card = Card { system: vec![0; system_size(N, M)], pair: vec![0; key_pair_size(N)], choices: vec![0; choices_size(N, ROUNDS)] };
        write_system(N, M, &entries, &mut card.system).unwrap();
        make_key(&card.system, &random.bytes(8 * N), &mut card.pair).unwrap();
        draw_choices(N, ROUNDS, &random.bytes(4 * N * ROUNDS), &mut card.choices).unwrap();
        card
    }

    /// Begun with these choices; the commitments.
    fn begin(&mut self) -> (Session<'_>, Vec<u8>) {
        let (public_key, secret_key) = self.pair.split_at(public_key_size(N));
        let mut commitments = vec![0; commitments_size(ROUNDS)];
        let (session, _) =
            Session::begin(ROUNDS, Keys { system: &self.system, public_key, secret_key }, &mut self.choices, &mut commitments).unwrap();
        (session, commitments)
    }

    fn choices_are_zeros(&self) -> bool {
        self.choices.iter().all(|&byte| byte == 0)
    }
}

fn challenges(random: &mut Random) -> Vec<u8> {
    let mut challenges = vec![0; challenges_size(ROUNDS)];
    draw_challenges(ROUNDS, &random.bytes(8 * ROUNDS), &mut challenges).unwrap();
    challenges
}

fn bits(random: &mut Random) -> Vec<u8> {
    let mut bits = vec![0; bits_size(ROUNDS)];
    draw_bits(ROUNDS, &random.bytes(8), &mut bits).unwrap();
    bits
}

fn stage(told: Result<usize, Refusal>) -> bool {
    told == Err(Refusal { number: Number::Stage, buffer: Buffer::None, place: 0 })
}

#[test]
fn a_whole_sign_on_is_accepted() {
    let random = &mut Random::new(1, 1);
    let mut card = Card::new(random);
    let (challenges, bits) = (challenges(random), bits(random));
    let (mut session, commitments) = card.begin();
    let mut first_answers = vec![0; first_answers_size(N, ROUNDS)];
    assert_eq!(session.answer_challenges(&challenges, &mut first_answers), Ok(first_answers.len()));
    let mut openings = vec![0; openings_size(N, ROUNDS)];
    assert_eq!(session.open(&bits, &mut openings), Ok(openings.len()));
    drop(session);
    assert!(card.choices_are_zeros());
    let (system, public_key) = (&card.system[..], &card.pair[..public_key_size(N)]);
    let sign_on = SignOn {
        system,
        public_key,
        commitments: &commitments,
        challenges: &challenges,
        first_answers: &first_answers,
        bits: &bits,
        openings: &openings,
    };
    assert_eq!(verdict(INSPECTOR, &sign_on), Ok(ROUNDS));
    assert_eq!(verdict(REGISTER_KEEPER, &sign_on), Err(Refusal { number: Number::Weak, buffer: Buffer::None, place: 0 }));
    let opened = opening(&openings, 3).unwrap();
    assert_eq!(opened, &openings[6 + 3 * N..][..N]);
}

#[test]
fn it_answers_once_and_opens_once() {
    let random = &mut Random::new(1, 2);
    let mut card = Card::new(random);
    let (challenges, bits) = (challenges(random), bits(random));
    let (mut session, _) = card.begin();
    let out = &mut vec![0; openings_size(N, ROUNDS)];
    assert!(stage(session.open(&bits, out)));
    session.answer_challenges(&challenges, out).unwrap();
    assert!(stage(session.answer_challenges(&challenges, out)));
    session.open(&bits, out).unwrap();
    assert!(stage(session.open(&bits, out)));
    assert!(stage(session.answer_challenges(&challenges, out)));
}

#[test]
fn a_refused_call_may_be_tried_again() {
    let random = &mut Random::new(1, 3);
    let mut card = Card::new(random);
    let (challenges, bits) = (challenges(random), bits(random));
    let (mut session, _) = card.begin();
    let (size, out) = (openings_size(N, ROUNDS), &mut vec![0; openings_size(N, ROUNDS)]);
    let room = Err(Refusal { number: Number::Room, buffer: Buffer::Output, place: size });
    assert_eq!(session.answer_challenges(&challenges, &mut out[..size - 1]), room);
    assert_eq!(session.answer_challenges(&challenges, out), Ok(size));
    assert_eq!(session.open(&bits, &mut out[..size - 1]), room);
    assert_eq!(session.open(&bits, out), Ok(size));
}

#[test]
fn a_refused_begin_leaves_the_choices() {
    let mut card = Card::new(&mut Random::new(1, 4));
    let before = card.choices.clone();
    let (public_key, secret_key) = card.pair.split_at(public_key_size(N));
    let keys = Keys { system: &card.system, public_key, secret_key };
    let refused = Session::begin(ROUNDS, keys, &mut card.choices, &mut []).unwrap_err();
    assert_eq!(refused, Refusal { number: Number::Room, buffer: Buffer::Output, place: commitments_size(ROUNDS) });
    assert_eq!(card.choices, before);
}

/// How a session comes to its end before it has opened.
type End = fn(Session, &mut Random);

#[test]
fn an_early_end_zeroes_the_choices() {
    let ends: [End; 4] = [
        |session, _| drop(session),
        |session, _| session.give_up(),
        |mut session, random| {
            session.answer_challenges(&challenges(random), &mut [0; first_answers_size(N, ROUNDS)]).unwrap();
        },
        |session, _| {
            let unwound = catch_unwind(AssertUnwindSafe(|| {
                let _held = session;
                std::panic::resume_unwind(Box::new("with a session under way"));
            }));
            assert!(unwound.is_err());
        },
    ];
    for end in ends {
        let random = &mut Random::new(1, 5);
        let mut card = Card::new(random);
        assert!(!card.choices_are_zeros());
        let (session, _) = card.begin();
        end(session, random);
        assert!(card.choices_are_zeros());
    }
}

/// With the choices of a sign-on that has ended none begins: zeros are no permutation.
#[test]
fn ended_choices_begin_nothing() {
    let mut card = Card::new(&mut Random::new(1, 6));
    card.begin().0.give_up();
    let (public_key, secret_key) = card.pair.split_at(public_key_size(N));
    let keys = Keys { system: &card.system, public_key, secret_key };
    let refused = Session::begin(ROUNDS, keys, &mut card.choices, &mut [0; commitments_size(ROUNDS)]).unwrap_err();
    assert_eq!(refused, Refusal { number: Number::Perm, buffer: Buffer::Choices, place: N });
}

/// Neither the secret key nor the choices come into a log.
#[test]
fn debug_shows_no_secret() {
    let mut card = Card::new(&mut Random::new(1, 7));
    let secret_key = format!("{:?}", &card.pair[public_key_size(N)..]);
    let choices = format!("{:?}", card.choices);
    let keys = Keys { system: &card.system, public_key: &[], secret_key: &card.pair[public_key_size(N)..] };
    assert!(!format!("{keys:?}").contains(secret_key.trim_matches(['[', ']'])));
    let shown = format!("{:?}", card.begin().0);
    assert!(shown.starts_with("Session { record: Record { stage: 1"));
    assert!(!shown.contains(choices.trim_matches(['[', ']'])));
}
