use std::fmt;

use crate::c::{signon_check_key, signon_make_key};
use crate::Refusal;

/// What a card has: the frames of its system and of both its keys.
#[derive(Clone, Copy)]
pub struct Keys<'a> {
    /// The frame of the system.
    pub system: &'a [u8],
    /// The frame of the public key.
    pub public_key: &'a [u8],
    /// The frame of the secret key.
    pub secret_key: &'a [u8],
}

/// Says nothing of the secret key.
impl fmt::Debug for Keys<'_> {
    fn fmt(&self, f: &mut fmt::Formatter) -> fmt::Result {
        f.debug_struct("Keys").field("system", &self.system).field("public_key", &self.public_key).finish_non_exhaustive()
    }
}

/// Makes a key for a system from lent random bytes, and answers how many of them were used. [`key_pair_size`](crate::key_pair_size) bytes
/// are written: the frame of the public key, and behind it that of the secret key.
///
/// Refused: a frame of the system that is not well formed; ROOM; DRAW.
pub fn make_key(system: &[u8], random: &[u8], out: &mut [u8]) -> Result<usize, Refusal> {
    signon_make_key(system, random, out)
}

/// Whether the keys are well formed and belong together.
///
/// Refused: a frame that is not well formed or not of the system's n; KEY.
pub fn check_key(keys: Keys) -> Result<(), Refusal> {
    signon_check_key(keys.system, keys.public_key, keys.secret_key)?;
    Ok(())
}
