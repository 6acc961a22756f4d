use crate::c::signon_verdict;
use crate::Refusal;

/// The grade of an inspector, which takes 20 rounds.
pub const INSPECTOR: usize = 1;

/// The grade of a register keeper, which takes 31 rounds.
pub const REGISTER_KEEPER: usize = 2;

/// What a register judges: the frames of the system and the public key, which it has, and those of the five passes.
#[derive(Clone, Copy, Debug)]
pub struct SignOn<'a> {
    /// The frame of the system.
    pub system: &'a [u8],
    /// The frame of the public key.
    pub public_key: &'a [u8],
    /// The frame of the commitments.
    pub commitments: &'a [u8],
    /// The frame of the challenges.
    pub challenges: &'a [u8],
    /// The frame of the first answers.
    pub first_answers: &'a [u8],
    /// The frame of the bits.
    pub bits: &'a [u8],
    /// The frame of the openings.
    pub openings: &'a [u8],
}

/// Judges a sign-on for a grade, [`INSPECTOR`] or [`REGISTER_KEEPER`], and answers the number of its rounds where it is accepted: every frame
/// is well formed and fits the earlier ones, the rounds suffice, and every round opens its commitment.
///
/// The register draws challenges and bits itself and judges those: it takes no such frame from the card.
///
/// Refused: the first frame that is not well formed or does not fit; WEAK; FIRST or SECOND for the first round that does not pass.
pub fn verdict(grade: usize, sign_on: &SignOn) -> Result<usize, Refusal> {
    let SignOn { system, public_key, commitments, challenges, first_answers, bits, openings } = sign_on;
    signon_verdict(grade, system, public_key, commitments, challenges, first_answers, bits, openings)
}
