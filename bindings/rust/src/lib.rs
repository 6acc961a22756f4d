//! The tablet sign-on: safe functions over an archive in which every function is proved to meet its contract.
//!
//! An inspector's tablet, the *card*, proves to a *register* who it is. The register asks, the card answers, and only a holder of the secret
//! key can keep answering. A sign-on has five passes, each one frame of bytes:
//!
//! | pass | from | frame | call |
//! |---|---|---|---|
//! | 1 | card | commitments | [`Session::begin`] |
//! | 2 | register | challenges | [`draw_challenges`] |
//! | 3 | card | first answers | [`Session::answer_challenges`] |
//! | 4 | register | bits | [`draw_bits`] |
//! | 5 | card | openings | [`Session::open`] |
//!
//! and then the register's [`verdict`]. The caller lends all memory and all random bytes; the functions keep nothing between calls. Outputs are
//! written over their front and keep their rest. Every call takes every input: what is wrong with it is told as a [`Refusal`], and a refused call
//! has changed nothing. What each call promises, to the byte, and in which order it refuses, is in docs/CALLS.md of the repository.
//!
//! # A whole sign-on
//!
//! ```
//! use signon::*;
//! # use std::io::Read;
//! # fn random(size: usize) -> Vec<u8> {
//! #     let mut bytes = vec![0; size];
//! #     std::fs::File::open("/dev/urandom").unwrap().read_exact(&mut bytes).unwrap();
//! #     bytes
//! # }
//!
//! const N: usize = 64; // places of a key
//! const M: usize = 37; // rows of the system
//! const ROUNDS: usize = 31; // what a register keeper's sign-on takes
//!
//! // Once: a system for all, and a key for the card. `random(size)` are bytes of the machine's source of randomness, twice as many as
//! // can be used, since some are skipped.
//! let entries: Vec<u8> = random(2 * M * (N - M)).into_iter().filter(|&byte| byte < MODULUS).take(M * (N - M)).collect();
//! let mut system = [0; system_size(N, M)];
//! write_system(N, M, &entries, &mut system)?;
//! let mut pair = [0; key_pair_size(N)];
//! make_key(&system, &random(4 * N), &mut pair)?;
//! let (public_key, secret_key) = pair.split_at(public_key_size(N));
//!
//! // Pass 1, the card: fresh choices, and commitments to them.
//! let mut choices = [0; choices_size(N, ROUNDS)];
//! draw_choices(N, ROUNDS, &random(2 * choices_size(N, ROUNDS)), &mut choices)?;
//! let keys = Keys { system: &system, public_key, secret_key };
//! let mut commitments = [0; commitments_size(ROUNDS)];
//! let (mut session, _) = Session::begin(ROUNDS, keys, &mut choices, &mut commitments)?;
//!
//! // Pass 2, the register.
//! let mut challenges = [0; challenges_size(ROUNDS)];
//! draw_challenges(ROUNDS, &random(2 * ROUNDS), &mut challenges)?;
//!
//! // Pass 3, the card.
//! let mut first_answers = [0; first_answers_size(N, ROUNDS)];
//! session.answer_challenges(&challenges, &mut first_answers)?;
//!
//! // Pass 4, the register.
//! let mut bits = [0; bits_size(ROUNDS)];
//! draw_bits(ROUNDS, &random(ROUNDS), &mut bits)?;
//!
//! // Pass 5, the card.
//! let mut openings = [0; openings_size(N, ROUNDS)];
//! session.open(&bits, &mut openings)?;
//!
//! // The register's verdict.
//! let sign_on = SignOn {
//!     system: &system,
//!     public_key,
//!     commitments: &commitments,
//!     challenges: &challenges,
//!     first_answers: &first_answers,
//!     bits: &bits,
//!     openings: &openings,
//! };
//! assert_eq!(verdict(REGISTER_KEEPER, &sign_on)?, ROUNDS);
//! # Ok::<(), Refusal>(())
//! ```
//!
//! # Buffers
//!
//! What is read is `&[u8]`, what is written `&mut [u8]`, so that an output can't overlap anything else that a call is lent:
//!
//! ```compile_fail,E0502
//! let mut bytes = [0; 64];
//! let written = signon::write_commitments(1, &bytes, &mut bytes);
//! ```
#![deny(missing_docs)]

#[cfg(not(all(target_arch = "x86_64", target_os = "linux")))]
compile_error!("the proved archive is compiled for x86-64 Linux alone");

mod c;
mod drawing;
mod hash;
mod keys;
mod read;
mod record;
mod refusal;
mod register;
mod session;
mod size;
mod stand_in;
mod write;

pub use drawing::*;
pub use hash::*;
pub use keys::*;
pub use read::*;
pub use record::*;
pub use refusal::*;
pub use register::*;
pub use session::*;
pub use size::*;
pub use stand_in::*;
pub use write::*;

/// The modulus p: residues are 0 to 250.
pub const MODULUS: u8 = 251;
