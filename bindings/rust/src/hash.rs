use crate::c::signon_hash;
use crate::{Refusal, DIGEST_SIZE};

/// SHA-256 of a message of 0 to 65,535 bytes.
///
/// Refused: SHAPE for a longer message, which goes by the name of the choices.
pub fn hash(message: &[u8]) -> Result<[u8; DIGEST_SIZE], Refusal> {
    let mut digest = [0; DIGEST_SIZE];
    signon_hash(message, &mut digest)?;
    Ok(digest)
}
