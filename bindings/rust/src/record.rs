use crate::c::{signon_answer_challenges, signon_begin, signon_give_up, signon_open};
use crate::{Keys, Refusal};

/// The record of a sign-on, for a host that keeps it itself: each call moves it on. Any bytes are a record. [`Session`](crate::Session) keeps
/// its own, and is harder to hold wrongly.
///
/// It is not `Clone`: a card that goes back to an earlier record answers twice from the same choices.
#[repr(C)]
#[derive(Debug, PartialEq, Eq)]
pub struct Record {
    /// 0 idle, 1 committed, 2 answered, 3 closed.
    pub stage: u8,
    /// The places of the keys.
    pub n: u8,
    /// The rows of the system.
    pub m: u8,
    /// The rounds.
    pub rounds: u8,
    /// The challenges answered, the first of them one for each round.
    pub challenges: [u8; 64],
}

impl Record {
    /// A record with which no sign-on has begun.
    pub const IDLE: Record = Record { stage: 0, n: 0, m: 0, rounds: 0, challenges: [0; 64] };

    /// From idle or closed to committed: writes the frame of the commitments, and answers how many bytes that is.
    ///
    /// # Choices serve one sign-on
    ///
    /// The choices are to be fresh, and the same at answer and open. **Choices lent to a second sign-on, a copy of them or a copy of the record
    /// gives the secret key away**: this call can't see it.
    ///
    /// Refused, in this order: STAGE; SHAPE for rounds out of their limits; the frames of the keys; the choices; KEY; ROOM.
    pub fn begin(&mut self, rounds: usize, keys: Keys, choices: &[u8], out: &mut [u8]) -> Result<usize, Refusal> {
        signon_begin(self, rounds, keys.system, keys.public_key, keys.secret_key, choices, out)
    }

    /// From committed to answered: takes the frame of the challenges, writes that of the first answers, and answers how many bytes that is.
    ///
    /// # Choices serve one sign-on
    ///
    /// The choices are those of begin. **Choices that answer two frames of challenges give the secret key away**: this call can't see it where
    /// they, or the record, are a copy.
    ///
    /// Refused, in this order: STAGE; the frames of the keys; a record that does not fit them, STAGE too; the challenges; the choices; KEY; ROOM.
    pub fn answer_challenges(&mut self, keys: Keys, challenges: &[u8], choices: &[u8], out: &mut [u8]) -> Result<usize, Refusal> {
        signon_answer_challenges(self, keys.system, keys.public_key, keys.secret_key, challenges, choices, out)
    }

    /// From answered to closed: takes the frame of the bits, writes that of the openings, fills the choices with zeros, and answers how many
    /// bytes were written.
    ///
    /// Refused, in this order: as [`Record::answer_challenges`], with the bits for the challenges; SELF.
    pub fn open(&mut self, keys: Keys, bits: &[u8], choices: &mut [u8], out: &mut [u8]) -> Result<usize, Refusal> {
        signon_open(self, keys.system, keys.public_key, keys.secret_key, bits, choices, out)
    }

    /// From any stage to idle: fills record and choices with zeros. It is never refused.
    pub fn give_up(&mut self, choices: &mut [u8]) {
        signon_give_up(self, choices).expect("giving up is never refused");
    }
}
