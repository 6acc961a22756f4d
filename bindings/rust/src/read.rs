//! Readers: whether a frame is well formed, and the numbers at its front. Nothing is copied.
use crate::c::{
    signon_check_opening, signon_read_bits, signon_read_challenges, signon_read_commitments, signon_read_first_answers, signon_read_openings,
    signon_read_public_key, signon_read_secret_key, signon_read_system,
};
use crate::Refusal;

/// The numbers of a system.
#[derive(Clone, Copy, Debug, PartialEq, Eq)]
pub struct SystemNumbers {
    /// The places of a key, 2 to 64.
    pub n: usize,
    /// The rows, 1 to n − 1.
    pub m: usize,
}

/// The numbers of a message that has n bytes for each round.
#[derive(Clone, Copy, Debug, PartialEq, Eq)]
pub struct RoundNumbers {
    /// The bytes of a round, 2 to 64.
    pub n: usize,
    /// The rounds, 1 to 64.
    pub rounds: usize,
}

/// A reader's answer holds its second number 256-fold.
const SECOND: usize = 256;

impl SystemNumbers {
    fn of(answer: usize) -> Self {
        SystemNumbers { n: answer % SECOND, m: answer / SECOND }
    }
}

impl RoundNumbers {
    fn of(answer: usize) -> Self {
        RoundNumbers { n: answer % SECOND, rounds: answer / SECOND }
    }
}

/// Reads the frame of a system.
///
/// Refused, here and at every reader: SHORT, LONG, VERSION, KIND, SHAPE, then VALUE or PERM.
pub fn read_system(frame: &[u8]) -> Result<SystemNumbers, Refusal> {
    signon_read_system(frame).map(SystemNumbers::of)
}

/// Reads the frame of a public key, and answers its n.
pub fn read_public_key(frame: &[u8]) -> Result<usize, Refusal> {
    signon_read_public_key(frame)
}

/// Reads the frame of a secret key, and answers its n.
pub fn read_secret_key(frame: &[u8]) -> Result<usize, Refusal> {
    signon_read_secret_key(frame)
}

/// Reads the frame of the commitments, and answers the number of rounds.
pub fn read_commitments(frame: &[u8]) -> Result<usize, Refusal> {
    signon_read_commitments(frame)
}

/// Reads the frame of the challenges, and answers the number of rounds.
pub fn read_challenges(frame: &[u8]) -> Result<usize, Refusal> {
    signon_read_challenges(frame)
}

/// Reads the frame of the first answers.
pub fn read_first_answers(frame: &[u8]) -> Result<RoundNumbers, Refusal> {
    signon_read_first_answers(frame).map(RoundNumbers::of)
}

/// Reads the frame of the bits, and answers the number of rounds.
pub fn read_bits(frame: &[u8]) -> Result<usize, Refusal> {
    signon_read_bits(frame)
}

/// Reads the frame of the openings.
pub fn read_openings(frame: &[u8]) -> Result<RoundNumbers, Refusal> {
    signon_read_openings(frame).map(RoundNumbers::of)
}

/// Where in the frame of the openings the permutation of a round starts.
///
/// Refused: as [`read_openings`], and then SHAPE for a round that the frame has not.
pub fn check_opening(openings: &[u8], round: usize) -> Result<usize, Refusal> {
    signon_check_opening(openings, round)
}

/// The permutation of a round, a stretch of the frame of the openings.
///
/// Refused: as [`check_opening`].
pub fn opening(openings: &[u8], round: usize) -> Result<&[u8], Refusal> {
    let start = check_opening(openings, round)?;
    let n = read_openings(openings)?.n;
    Ok(&openings[start..start + n])
}
