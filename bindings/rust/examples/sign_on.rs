//! A whole sign-on, card and register in one process, pass by pass.
//!
//!     cargo run --release --offline --example sign_on
use std::error::Error;
use std::fs::File;
use std::io::Read;
use std::process::ExitCode;

use signon::*;

/// Places of a key, rows of the system, rounds.
const N: usize = 64;
const M: usize = 37;
const ROUNDS: usize = 31;

/// Bytes of the system's source of randomness.
fn random(size: usize) -> std::io::Result<Vec<u8>> {
    let mut bytes = vec![0; size];
    File::open("/dev/urandom")?.read_exact(&mut bytes)?;
    Ok(bytes)
}

/// As many random bytes as a drawing of so many takes, and as many again, since some are skipped.
fn plenty(drawn: usize) -> std::io::Result<Vec<u8>> {
    random(2 * drawn)
}

/// A system that all share: its entries are residues.
fn make_system() -> Result<[u8; system_size(N, M)], Box<dyn Error>> {
    let entries: Vec<u8> = plenty(M * (N - M))?.into_iter().filter(|&byte| byte < MODULUS).take(M * (N - M)).collect();
    let mut system = [0; system_size(N, M)];
    write_system(N, M, &entries, &mut system)?;
    Ok(system)
}

/// The size of a frame, and its first bytes.
fn show(pass: &str, frame: &[u8]) {
    let front: String = frame.iter().take(24).map(|byte| format!("{byte:02x}")).collect();
    println!("{pass:<32} {:>5} bytes  {front}", frame.len());
}

fn sign_on() -> Result<(), Box<dyn Error>> {
    let system = make_system()?;
    let mut pair = [0; key_pair_size(N)];
    make_key(&system, &plenty(2 * N)?, &mut pair)?;
    let (public_key, secret_key) = pair.split_at(public_key_size(N));
    let keys = Keys { system: &system, public_key, secret_key };
    check_key(keys)?;
    show("system", &system);
    show("public key", public_key);

    let mut choices = [0; choices_size(N, ROUNDS)];
    draw_choices(N, ROUNDS, &plenty(choices_size(N, ROUNDS))?, &mut choices)?;
    let mut commitments = [0; commitments_size(ROUNDS)];
    let (mut session, _) = Session::begin(ROUNDS, keys, &mut choices, &mut commitments)?;
    show("1 card to register: commitments", &commitments);

    let mut challenges = [0; challenges_size(ROUNDS)];
    draw_challenges(ROUNDS, &plenty(ROUNDS)?, &mut challenges)?;
    show("2 register to card: challenges", &challenges);

    let mut first_answers = [0; first_answers_size(N, ROUNDS)];
    session.answer_challenges(&challenges, &mut first_answers)?;
    show("3 card to register: answers", &first_answers);

    let mut bits = [0; bits_size(ROUNDS)];
    draw_bits(ROUNDS, &random(ROUNDS.div_ceil(8))?, &mut bits)?;
    show("4 register to card: bits", &bits);

    let mut openings = [0; openings_size(N, ROUNDS)];
    session.open(&bits, &mut openings)?;
    show("5 card to register: openings", &openings);

    let sign_on = SignOn {
        system: &system,
        public_key,
        commitments: &commitments,
        challenges: &challenges,
        first_answers: &first_answers,
        bits: &bits,
        openings: &openings,
    };
    println!("verdict: accepted {}", verdict(REGISTER_KEEPER, &sign_on)?);

    // A card that opens something else is refused.
    let mut changed = openings;
    changed[6..6 + N].reverse();
    let refusal = verdict(REGISTER_KEEPER, &SignOn { openings: &changed, ..sign_on }).expect_err("a changed opening is not accepted");
    println!("with an opening changed: {refusal}");
    Ok(())
}

fn main() -> ExitCode {
    match sign_on() {
        Ok(()) => ExitCode::SUCCESS,
        Err(error) => {
            eprintln!("{error}");
            ExitCode::FAILURE
        }
    }
}
