//! Document 01's small system, by hand: n = 3, m = 1, A' = (1, 2), V = (3, 240, 5), π = (2, 0, 1), R = (10, 20, 30), σ = (1, 0, 2).
use signon::*;

const SYSTEM: [u8; 8] = [0, 6, 1, 1, 3, 1, 1, 2];
const PUBLIC_KEY: [u8; 8] = [0, 6, 1, 2, 3, 3, 240, 5];
const KEYS: Keys = Keys { system: &SYSTEM, public_key: &PUBLIC_KEY, secret_key: &[0, 6, 1, 3, 3, 2, 0, 1] };
const CHOICES: [u8; 6] = [10, 20, 30, 1, 0, 2];

/// The commitments, the first answer and the opened permutation of one round.
fn round(challenge: u8, packed_bit: u8) -> (Vec<u8>, [u8; 3], [u8; 3]) {
    let mut choices = CHOICES;
    let (mut commitments, mut first_answer, mut opened) = ([0; commitments_size(1)], [0; first_answers_size(3, 1)], [0; openings_size(3, 1)]);
    let (mut session, _) = Session::begin(1, KEYS, &mut choices, &mut commitments).unwrap();
    session.answer_challenges(&[0, 4, 1, 5, 1, challenge], &mut first_answer).unwrap();
    session.open(&[0, 4, 1, 7, 1, packed_bit], &mut opened).unwrap();
    (commitments[5..].to_vec(), first_answer[6..].try_into().unwrap(), opened[6..].try_into().unwrap())
}

#[test]
fn its_rounds() {
    let (commitments, ..) = round(7, 0);
    assert_eq!(commitments[..32], hash(&[1, 0, 2, 80]).unwrap(), "σ and A R");
    assert_eq!(commitments[32..], hash(&[0, 2, 1, 20, 10, 30]).unwrap(), "πσ and R_σ");
    assert_eq!(round(7, 0).1, [41, 45, 204]);
    assert_eq!(round(250, 0).1, [17, 5, 41]);
    assert_eq!(round(0, 0).1, [20, 10, 30]);
    assert_eq!(round(7, 0).2, [1, 0, 2], "σ for bit 0");
    assert_eq!(round(7, 128).2, [0, 2, 1], "πσ for bit 1");
}

#[test]
fn its_keys() {
    assert_eq!(check_key(KEYS), Ok(()));
    let identity = Keys { secret_key: &[0, 6, 1, 3, 3, 0, 1, 2], ..KEYS };
    assert_eq!(check_key(identity), Err(Refusal { number: Number::Key, buffer: Buffer::SecretKey, place: 0 }));
}

#[test]
fn its_drawings() {
    let (mut permutation, mut challenges, mut bits) = ([0; 3], [0; challenges_size(2)], [0; bits_size(3)]);
    assert_eq!(draw_permutation(3, &[255, 4, 1], &mut permutation), Ok(3));
    assert_eq!(permutation, [0, 2, 1]);
    assert_eq!(draw_challenges(2, &[251, 250, 0], &mut challenges), Ok(3));
    assert_eq!(challenges[5..], [250, 0]);
    let too_few = Refusal { number: Number::Draw, buffer: Buffer::Random, place: 2 };
    assert_eq!(draw_challenges(2, &[251, 250], &mut challenges), Err(too_few));
    assert_eq!(draw_bits(3, &[0xbf], &mut bits), Ok(1));
    assert_eq!(bits[5..], [0xa0]);
}

#[test]
fn its_limits() {
    assert_eq!(read_challenges(&[0, 4, 1, 5, 1, 250]), Ok(1));
    assert_eq!(read_challenges(&[0, 4, 1, 5, 1, 251]), Err(Refusal { number: Number::Value, buffer: Buffer::Challenges, place: 5 }));
}

/// The verdict program's sample: a round that fits, and too few of them.
#[test]
fn its_sample() {
    let sign_on = SignOn {
        system: &SYSTEM,
        public_key: &PUBLIC_KEY,
        commitments: &[&[0, 0x43, 1, 4, 1], [0; 64].as_slice()].concat(),
        challenges: &[0, 4, 1, 5, 1, 7],
        first_answers: &[0, 7, 1, 6, 3, 1, 0x29, 0x2d, 0xcc],
        bits: &[0, 4, 1, 7, 1, 0],
        openings: &[0, 7, 1, 8, 3, 1, 1, 0, 2],
    };
    assert_eq!(verdict(INSPECTOR, &sign_on), Err(Refusal { number: Number::Weak, buffer: Buffer::None, place: 0 }));
}
