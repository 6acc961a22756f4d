//! The archive's C functions, and over each a safe function of the same name, in which a buffer is a slice.
use crate::{Record, Refusal};

/// What every C function answers: number 0 and a value as the place, or a refusal.
#[repr(C)]
struct Answer {
    number: u8,
    buffer: u8,
    place: u64,
}

// As C lays them out.
const _: () = assert!(size_of::<Answer>() == 16 && size_of::<Record>() == 68 && align_of::<Record>() == 1);

impl Answer {
    fn told(self) -> Result<usize, Refusal> {
        let place = usize::try_from(self.place).expect("a place is an offset or a count");
        match self.number {
            0 => Ok(place),
            number => Err(Refusal::new(number, self.buffer, place)),
        }
    }
}

/// A line is a C function: what goes to it as it is, the buffers that it reads, those that it writes. In C a buffer is two arguments,
/// pointer and size.
macro_rules! functions {
    ($(
        $name:ident
        $(with($($given:ident: $type:ty),*))?
        $(read($($read:ident),*))?
        $(write($($written:ident),*))?
        $(and($last:ident: $last_type:ty))?;
    )*) => {
        mod archive {
            use super::{Answer, Record};

            extern "C" {
                $(pub(super) fn $name(
                    $($($given: $type,)*)?
                    $($($read: *const u8, _: usize,)*)?
                    $($($written: *mut u8, _: usize,)*)?
                    $($last: $last_type,)?
                ) -> Answer;)*
            }
        }

        $(
        #[allow(clippy::too_many_arguments)] // as many as in C
        pub(crate) fn $name(
            $($($given: $type,)*)?
            $($($read: &[u8],)*)?
            $($($written: &mut [u8],)*)?
            $($last: $last_type,)?
        ) -> Result<usize, Refusal> {
            // SAFETY: The function is proved to take every input, to read no byte but those of the slices and the record, to write none but
            // those of the slices that are `&mut` and the record, and to keep no pointer. Each pointer and size is that of a slice, alive for
            // the call, and what is `&mut` overlaps nothing else.
            let answer = unsafe {
                archive::$name(
                    $($($given,)*)?
                    $($($read.as_ptr(), $read.len(),)*)?
                    $($($written.as_mut_ptr(), $written.len(),)*)?
                    $($last,)?
                )
            };
            answer.told()
        })*
    };
}

functions! {
    signon_hash read(message) write(out);
    signon_check_key read(system, public_key, secret_key);
    signon_begin with(record: &mut Record, rounds: usize) read(system, public_key, secret_key, choices) write(out);
    signon_answer_challenges with(record: &mut Record) read(system, public_key, secret_key, challenges, choices) write(out);
    signon_open with(record: &mut Record) read(system, public_key, secret_key, bits) write(choices, out);
    signon_give_up with(record: &mut Record) write(choices);
    signon_draw_permutation with(n: usize) read(random) write(out);
    signon_draw_challenges with(rounds: usize) read(random) write(out);
    signon_draw_bits with(rounds: usize) read(random) write(out);
    signon_draw_choices with(n: usize, rounds: usize) read(random) write(out);
    signon_make_key read(system, random) write(out);
    signon_verdict with(grade: usize) read(system, public_key, commitments, challenges, first_answers, bits, openings);
    signon_stand_in with(challenge: usize, bit: usize) read(system, public_key, lent) write(out);
    signon_read_system read(frame);
    signon_read_public_key read(frame);
    signon_read_secret_key read(frame);
    signon_read_commitments read(frame);
    signon_read_challenges read(frame);
    signon_read_first_answers read(frame);
    signon_read_bits read(frame);
    signon_read_openings read(frame);
    signon_check_opening read(openings) and(round: usize);
    signon_write_system with(n: usize, m: usize) read(plain) write(out);
    signon_write_public_key with(n: usize) read(plain) write(out);
    signon_write_secret_key with(n: usize) read(plain) write(out);
    signon_write_commitments with(rounds: usize) read(plain) write(out);
    signon_write_challenges with(rounds: usize) read(plain) write(out);
    signon_write_first_answers with(n: usize, rounds: usize) read(plain) write(out);
    signon_write_bits with(rounds: usize) read(plain) write(out);
    signon_write_openings with(n: usize, rounds: usize) read(plain) write(out);
}
