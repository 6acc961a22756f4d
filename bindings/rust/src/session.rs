use std::fmt;

use crate::{Keys, Record, Refusal};

/// A card's sign-on under way. It holds the choices from begin to end, so that they can't be lent twice, and it answers once and opens once: a
/// call that does not come next is refused with STAGE. A refused call leaves all as it was and may be tried again.
///
/// Dropped before it has opened, it gives up: the choices are filled with zeros. A session that is leaked, as by [`std::mem::forget`], can't.
///
/// The choices can't be lent to a second sign-on while the first is under way:
///
/// ```compile_fail,E0499
/// # use signon::{Keys, Refusal, Session};
/// fn twice(keys: Keys, choices: &mut [u8], out: &mut [u8]) -> Result<(), Refusal> {
///     let (first, _) = Session::begin(1, keys, choices, out)?;
///     let (second, _) = Session::begin(1, keys, choices, out)?;
///     first.give_up();
///     Ok(second.give_up())
/// }
/// ```
///
/// When the first has ended they are zeros, with which no sign-on begins:
///
/// ```
/// # use signon::{Keys, Refusal, Session};
/// fn one_by_one(keys: Keys, choices: &mut [u8], out: &mut [u8]) -> Result<(), Refusal> {
///     let (first, _) = Session::begin(1, keys, choices, out)?;
///     first.give_up();
///     let (second, _) = Session::begin(1, keys, choices, out)?;
///     Ok(second.give_up())
/// }
/// ```
pub struct Session<'a> {
    record: Record,
    keys: Keys<'a>,
    choices: &'a mut [u8],
}

impl<'a> Session<'a> {
    /// Begins: writes the frame of the commitments, [`commitments_size`](crate::commitments_size) bytes, and answers how many that is.
    ///
    /// # Choices serve one sign-on
    ///
    /// Lend choices fresh from [`draw_choices`](crate::draw_choices). **Choices lent twice give the secret key away**: if they are copied, kept
    /// and lent to a second sign-on, or drawn from the same random bytes, two answers from them are enough to work the key out. A session can
    /// see that of its own choices alone, not of a copy.
    ///
    /// Refused, in this order: SHAPE for rounds out of their limits; the frames of the keys; the choices; KEY; ROOM.
    pub fn begin(rounds: usize, keys: Keys<'a>, choices: &'a mut [u8], out: &mut [u8]) -> Result<(Self, usize), Refusal> {
        let mut record = Record::IDLE;
        let written = record.begin(rounds, keys, choices, out)?;
        Ok((Session { record, keys, choices }, written))
    }

    /// Answers: takes the frame of the challenges, writes that of the first answers, [`first_answers_size`](crate::first_answers_size) bytes,
    /// and answers how many that is.
    ///
    /// **Choices that answer two frames of challenges give the secret key away.** A session answers one; see to it that no copy of its choices
    /// answers another.
    ///
    /// Refused, in this order: STAGE; the challenges; ROOM.
    pub fn answer_challenges(&mut self, challenges: &[u8], out: &mut [u8]) -> Result<usize, Refusal> {
        self.record.answer_challenges(self.keys, challenges, self.choices, out)
    }

    /// Opens: takes the frame of the bits, writes that of the openings, [`openings_size`](crate::openings_size) bytes, fills the choices with
    /// zeros, and answers how many bytes were written.
    ///
    /// Refused, in this order: STAGE; the bits; ROOM; SELF.
    pub fn open(&mut self, bits: &[u8], out: &mut [u8]) -> Result<usize, Refusal> {
        self.record.open(self.keys, bits, self.choices, out)
    }

    /// Gives up, as dropping does: the choices are filled with zeros.
    pub fn give_up(self) {}
}

impl Drop for Session<'_> {
    /// After an opening the choices are zeros already, and this changes nothing.
    fn drop(&mut self) {
        self.record.give_up(self.choices);
    }
}

/// Says nothing of choices and keys.
impl fmt::Debug for Session<'_> {
    fn fmt(&self, f: &mut fmt::Formatter) -> fmt::Result {
        f.debug_struct("Session").field("record", &self.record).finish_non_exhaustive()
    }
}
