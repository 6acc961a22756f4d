//! How many bytes each buffer has, for numbers within their limits: n is 2 to 64, m is 1 to n − 1, rounds are 1 to 64.

/// The bytes of a digest.
pub const DIGEST_SIZE: usize = 32;

/// What stands before the body of a frame: count, version and kind.
const HEADING: usize = 4;

/// The frame of a system of n places and m rows.
pub const fn system_size(n: usize, m: usize) -> usize {
    HEADING + 2 + m * (n - m)
}

/// The frame of a public key of n places.
pub const fn public_key_size(n: usize) -> usize {
    HEADING + 1 + n
}

/// The frame of a secret key of n places.
pub const fn secret_key_size(n: usize) -> usize {
    HEADING + 1 + n
}

/// The frame of the commitments, two for each round.
pub const fn commitments_size(rounds: usize) -> usize {
    HEADING + 1 + 2 * DIGEST_SIZE * rounds
}

/// The frame of the challenges.
pub const fn challenges_size(rounds: usize) -> usize {
    HEADING + 1 + rounds
}

/// The frame of the first answers, n residues for each round.
pub const fn first_answers_size(n: usize, rounds: usize) -> usize {
    HEADING + 2 + n * rounds
}

/// The frame of the bits, eight to a byte.
pub const fn bits_size(rounds: usize) -> usize {
    HEADING + 1 + rounds.div_ceil(8)
}

/// The frame of the openings, a permutation for each round.
pub const fn openings_size(n: usize, rounds: usize) -> usize {
    HEADING + 2 + n * rounds
}

/// The choices: n residues and a permutation for each round, with no frame.
pub const fn choices_size(n: usize, rounds: usize) -> usize {
    2 * n * rounds
}

/// What [`make_key`](crate::make_key) writes: the frame of the public key, and behind it that of the secret key.
pub const fn key_pair_size(n: usize) -> usize {
    public_key_size(n) + secret_key_size(n)
}

/// What [`stand_in`](crate::stand_in) writes: a commitment, a first answer and a permutation.
pub const fn stand_in_size(n: usize) -> usize {
    DIGEST_SIZE + 2 * n
}
