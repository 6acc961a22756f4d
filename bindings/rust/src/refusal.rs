use std::error::Error;
use std::fmt;

/// Why a call was refused. A refused call has changed no byte that it was lent, and no record.
///
/// ```
/// use signon::{read_public_key, Buffer, Number, Refusal};
///
/// let refusal = read_public_key(&[0, 6, 1, 2, 3, 3, 240, 251]).unwrap_err();
/// assert_eq!(refusal, Refusal { number: Number::Value, buffer: Buffer::PublicKey, place: 7 });
/// assert_eq!(refusal.to_string(), "VALUE: byte 7 of the public key is no residue: residues are 0 to 250");
/// ```
#[derive(Clone, Copy, Debug, PartialEq, Eq, Hash)]
pub struct Refusal {
    /// What is wrong.
    pub number: Number,
    /// The buffer that it is wrong with.
    pub buffer: Buffer,
    /// Where: a byte's offset, a row of A V_π, a round, or a count of bytes, as [`Number`] says.
    pub place: usize,
}

impl Refusal {
    /// From an answer of the archive, whose refusals have a number of 1 to 15 and a buffer of 0 to 11.
    pub(crate) fn new(number: u8, buffer: u8, place: usize) -> Self {
        Refusal { number: Number::ALL[usize::from(number) - 1], buffer: Buffer::ALL[usize::from(buffer)], place }
    }
}

impl fmt::Display for Refusal {
    fn fmt(&self, f: &mut fmt::Formatter) -> fmt::Result {
        let Refusal { number, buffer, place } = self;
        write!(f, "{number}: ")?;
        match number {
            Number::Short => write!(f, "{buffer} ends too early: a frame has at least 4 bytes, and as many as its count says"),
            Number::Long => write!(f, "{buffer} goes on behind its end: a frame has no more bytes than its count says"),
            Number::Version => write!(f, "byte {place} of {buffer} is another version: it has to be 1"),
            Number::Kind => write!(f, "byte {place} of {buffer} is another kind of frame"),
            Number::Shape => shape(f, *buffer, *place),
            Number::Value => write!(f, "byte {place} of {buffer} is no residue: residues are 0 to 250"),
            Number::Perm => write!(f, "no permutation starts at byte {place} of {buffer}: each of 0 to n - 1 has to come once"),
            Number::Key => write!(f, "{buffer} is not that of this system and public key: row {place} of A V_π is not zero"),
            Number::Room => write!(f, "{buffer} is too small: {place} bytes are to be written"),
            Number::Draw => write!(f, "{buffer} run out: {place} are not enough"),
            Number::Stage => write!(f, "the record is not at the stage of this call, or is not of this system"),
            Number::Weak => write!(f, "no such grade, or too few rounds: grade 1 takes 20, grade 2 takes 31"),
            Number::First => write!(f, "round {place}, of bit 0, does not open its first commitment"),
            Number::Second => write!(f, "round {place}, of bit 1, does not open its second commitment"),
            Number::SelfCheck => write!(f, "round {place} does not pass the card's own check"),
        }
    }
}

/// SHAPE is about a bare number, about a buffer that is no frame (place 0), or about a frame. Bits alone have unused ones.
fn shape(f: &mut fmt::Formatter, buffer: Buffer, place: usize) -> fmt::Result {
    let unused = if buffer == Buffer::Bits { ", or an unused bit is set" } else { "" };
    match (buffer, place) {
        (Buffer::None, _) => write!(f, "a number given to the call is out of its limits"),
        (_, 0) => write!(f, "the length of {buffer} is not what the call takes{unused}"),
        _ => write!(f, "a number of {buffer} is missing, out of its limits or not that of what came before, or its length does not fit{unused}"),
    }
}

impl Error for Refusal {}

/// The number of a refusal: `number as u8` is 1 for SHORT up to 15 for SELF.
#[derive(Clone, Copy, Debug, PartialEq, Eq, Hash, PartialOrd, Ord)]
pub enum Number {
    /// Under 4 bytes, or fewer than the frame's count says. Place 0.
    Short = 1,
    /// More bytes than the frame's count says. Place 0.
    Long,
    /// A version that is not 1. Place 2.
    Version,
    /// Another kind of frame. Place 3.
    Kind,
    /// A number out of its limits or differing from what came before, a length that does not fit, an unused bit that is set. Place 4 in a
    /// frame, else 0.
    Shape,
    /// A residue above 250. Its offset.
    Value,
    /// No permutation. The offset of its first byte.
    Perm,
    /// A secret key that is not that of the public key. The first row of A V_π that is not zero.
    Key,
    /// An output that is too small. The bytes needed.
    Room,
    /// Random bytes that run out. The bytes lent.
    Draw,
    /// The wrong stage, or a record that is not of this system. Place 0.
    Stage,
    /// No such grade, or too few rounds for it. Place 0.
    Weak,
    /// A round of bit 0 that does not pass. The round.
    First,
    /// A round of bit 1 that does not pass. The round.
    Second,
    /// SELF: the card's own check does not pass. The round.
    SelfCheck,
}

impl Number {
    const ALL: [Number; 15] = [
        Number::Short,
        Number::Long,
        Number::Version,
        Number::Kind,
        Number::Shape,
        Number::Value,
        Number::Perm,
        Number::Key,
        Number::Room,
        Number::Draw,
        Number::Stage,
        Number::Weak,
        Number::First,
        Number::Second,
        Number::SelfCheck,
    ];
}

impl fmt::Display for Number {
    fn fmt(&self, f: &mut fmt::Formatter) -> fmt::Result {
        match self {
            Number::SelfCheck => f.write_str("SELF"),
            number => f.write_str(&format!("{number:?}").to_uppercase()),
        }
    }
}

/// The buffer that a refusal is about: `buffer as u8` is 0 for none up to 11 for the output.
#[derive(Clone, Copy, Debug, PartialEq, Eq, Hash, PartialOrd, Ord)]
pub enum Buffer {
    /// No buffer: a bare number, the record or the grade.
    None,
    /// The system.
    System,
    /// The public key.
    PublicKey,
    /// The secret key.
    SecretKey,
    /// The choices, or in their place the message of [`hash`](crate::hash) and what is lent to [`stand_in`](crate::stand_in).
    Choices,
    /// The commitments.
    Commitments,
    /// The challenges.
    Challenges,
    /// The first answers.
    FirstAnswers,
    /// The bits.
    Bits,
    /// The openings.
    Openings,
    /// The random bytes.
    Random,
    /// The output.
    Output,
}

impl Buffer {
    const ALL: [Buffer; 12] = [
        Buffer::None,
        Buffer::System,
        Buffer::PublicKey,
        Buffer::SecretKey,
        Buffer::Choices,
        Buffer::Commitments,
        Buffer::Challenges,
        Buffer::FirstAnswers,
        Buffer::Bits,
        Buffer::Openings,
        Buffer::Random,
        Buffer::Output,
    ];
}

impl fmt::Display for Buffer {
    fn fmt(&self, f: &mut fmt::Formatter) -> fmt::Result {
        f.write_str(match self {
            Buffer::None => "no buffer",
            Buffer::System => "the system",
            Buffer::PublicKey => "the public key",
            Buffer::SecretKey => "the secret key",
            Buffer::Choices => "the choices (or message)",
            Buffer::Commitments => "the commitments",
            Buffer::Challenges => "the challenges",
            Buffer::FirstAnswers => "the first answers",
            Buffer::Bits => "the bits",
            Buffer::Openings => "the openings",
            Buffer::Random => "the random bytes",
            Buffer::Output => "the output",
        })
    }
}

#[cfg(test)]
mod tests {
    use super::{Buffer, Number};

    #[test]
    fn numbers_and_names_are_the_documents() {
        let names = "SHORT LONG VERSION KIND SHAPE VALUE PERM KEY ROOM DRAW STAGE WEAK FIRST SECOND SELF";
        let shown = Number::ALL.map(|number| number.to_string()).join(" ");
        assert_eq!(shown, names);
        assert_eq!(Number::ALL.map(|number| number as usize), std::array::from_fn(|place| place + 1));
        assert_eq!(Buffer::ALL.map(|buffer| buffer as usize), std::array::from_fn(|place| place));
    }
}
