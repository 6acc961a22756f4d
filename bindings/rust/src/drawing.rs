//! Drawings from lent random bytes. Each answers how many of the bytes were used, those that were skipped counted; they are not to be
//! lent again.
use crate::c::{signon_draw_bits, signon_draw_challenges, signon_draw_choices, signon_draw_permutation};
use crate::Refusal;

/// Draws a permutation of n, n bytes, and answers how many random bytes were used.
///
/// Refused: SHAPE for an n out of its limits; ROOM; DRAW.
pub fn draw_permutation(n: usize, random: &[u8], out: &mut [u8]) -> Result<usize, Refusal> {
    signon_draw_permutation(n, random, out)
}

/// Draws a challenge for each round, as a frame, and answers how many random bytes were used.
///
/// Refused: SHAPE for rounds out of their limits; ROOM; DRAW.
pub fn draw_challenges(rounds: usize, random: &[u8], out: &mut [u8]) -> Result<usize, Refusal> {
    signon_draw_challenges(rounds, random, out)
}

/// Draws a bit for each round, as a frame, and answers how many random bytes were used.
///
/// Refused: SHAPE for rounds out of their limits; ROOM; DRAW.
pub fn draw_bits(rounds: usize, random: &[u8], out: &mut [u8]) -> Result<usize, Refusal> {
    signon_draw_bits(rounds, random, out)
}

/// Draws the choices of a sign-on, n residues and a permutation for each round, and answers how many random bytes were used.
/// [`choices_size`](crate::choices_size) bytes are written, with no frame.
///
/// Choices are as secret as the key, and serve one sign-on: see [`Session::begin`](crate::Session::begin).
///
/// Refused: SHAPE for an n or rounds out of their limits; ROOM; DRAW.
pub fn draw_choices(n: usize, rounds: usize, random: &[u8], out: &mut [u8]) -> Result<usize, Refusal> {
    signon_draw_choices(n, rounds, random, out)
}
