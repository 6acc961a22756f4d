use crate::c::signon_stand_in;
use crate::Refusal;

/// Makes a round that passes without a secret key, for a challenge and a bit that are known beforehand, and answers how many bytes were
/// written: commitment, first answer and permutation, [`stand_in_size`](crate::stand_in_size) bytes. It shows that what a round opens says
/// nothing of the key. `lent` is a vector of n residues and then a permutation.
///
/// Refused: SHAPE for a challenge above 250 or a bit above 1; a frame that is not well formed or not of the system's n; `lent` that is not of 2n
/// bytes, holds no residue or no permutation; ROOM.
pub fn stand_in(challenge: usize, bit: usize, system: &[u8], public_key: &[u8], lent: &[u8], out: &mut [u8]) -> Result<usize, Refusal> {
    signon_stand_in(challenge, bit, system, public_key, lent, out)
}
