//! Writers: `plain`, the body of a frame after its numbers, as a frame. Each answers how many bytes were written.
use crate::c::{
    signon_write_bits, signon_write_challenges, signon_write_commitments, signon_write_first_answers, signon_write_openings, signon_write_public_key,
    signon_write_secret_key, signon_write_system,
};
use crate::Refusal;

/// Writes the frame of a system: `plain` is A' by rows, m(n − m) residues.
///
/// Refused, here and at every writer: SHAPE for a number out of its limits or a `plain` of another length; VALUE or PERM at the offset in
/// `plain`; ROOM.
pub fn write_system(n: usize, m: usize, plain: &[u8], out: &mut [u8]) -> Result<usize, Refusal> {
    signon_write_system(n, m, plain, out)
}

/// Writes the frame of a public key: `plain` is V, n residues.
pub fn write_public_key(n: usize, plain: &[u8], out: &mut [u8]) -> Result<usize, Refusal> {
    signon_write_public_key(n, plain, out)
}

/// Writes the frame of a secret key: `plain` is π, a permutation of n.
pub fn write_secret_key(n: usize, plain: &[u8], out: &mut [u8]) -> Result<usize, Refusal> {
    signon_write_secret_key(n, plain, out)
}

/// Writes the frame of the commitments: `plain` is two digests for each round.
pub fn write_commitments(rounds: usize, plain: &[u8], out: &mut [u8]) -> Result<usize, Refusal> {
    signon_write_commitments(rounds, plain, out)
}

/// Writes the frame of the challenges: `plain` is a residue for each round.
pub fn write_challenges(rounds: usize, plain: &[u8], out: &mut [u8]) -> Result<usize, Refusal> {
    signon_write_challenges(rounds, plain, out)
}

/// Writes the frame of the first answers: `plain` is n residues for each round.
pub fn write_first_answers(n: usize, rounds: usize, plain: &[u8], out: &mut [u8]) -> Result<usize, Refusal> {
    signon_write_first_answers(n, rounds, plain, out)
}

/// Writes the frame of the bits: `plain` is a bit for each round, eight to a byte, the highest first. An unused bit that is set is SHAPE.
pub fn write_bits(rounds: usize, plain: &[u8], out: &mut [u8]) -> Result<usize, Refusal> {
    signon_write_bits(rounds, plain, out)
}

/// Writes the frame of the openings: `plain` is a permutation of n for each round.
pub fn write_openings(n: usize, rounds: usize, plain: &[u8], out: &mut [u8]) -> Result<usize, Refusal> {
    signon_write_openings(n, rounds, plain, out)
}
