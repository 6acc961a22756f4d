//! Each size is the one that the archive asks for: ROOM tells how many bytes are to be written.
use signon::*;

/// The bytes that a call asks of an output of none.
fn asked(call: impl Fn(&mut [u8]) -> Result<usize, Refusal>) -> usize {
    let refusal = call(&mut []).unwrap_err();
    assert_eq!((refusal.number, refusal.buffer), (Number::Room, Buffer::Output));
    refusal.place
}

fn identities(n: usize, count: usize) -> Vec<u8> {
    (0..n as u8).collect::<Vec<_>>().repeat(count)
}

fn system_of(n: usize, m: usize) -> Vec<u8> {
    let mut system = vec![0; system_size(n, m)];
    write_system(n, m, &vec![0; m * (n - m)], &mut system).unwrap();
    system
}

#[test]
fn of_places_and_rows() {
    for (n, m) in (2..=64).flat_map(|n| (1..n).map(move |m| (n, m))) {
        assert_eq!(asked(|out| write_system(n, m, &vec![0; m * (n - m)], out)), system_size(n, m));
    }
    for n in 2..=64 {
        let (system, mut key) = (system_of(n, 1), vec![0; public_key_size(n)]);
        write_public_key(n, &vec![0; n], &mut key).unwrap();
        let lent = [vec![0; n], identities(n, 1)].concat();
        assert_eq!(asked(|out| write_public_key(n, &vec![0; n], out)), public_key_size(n));
        assert_eq!(asked(|out| write_secret_key(n, &identities(n, 1), out)), secret_key_size(n));
        assert_eq!(asked(|out| make_key(&system, &[], out)), key_pair_size(n));
        assert_eq!(asked(|out| stand_in(0, 0, &system, &key, &lent, out)), stand_in_size(n));
        assert_eq!(asked(|out| draw_permutation(n, &[], out)), n);
    }
}

#[test]
fn of_rounds() {
    for rounds in 1..=64 {
        assert_eq!(asked(|out| write_commitments(rounds, &vec![0; 64 * rounds], out)), commitments_size(rounds));
        assert_eq!(asked(|out| draw_challenges(rounds, &[], out)), challenges_size(rounds));
        assert_eq!(asked(|out| draw_bits(rounds, &[], out)), bits_size(rounds));
    }
}

#[test]
fn of_places_and_rounds() {
    for (n, rounds) in (2..=64).flat_map(|n| (1..=64).map(move |rounds| (n, rounds))) {
        assert_eq!(asked(|out| write_first_answers(n, rounds, &vec![0; n * rounds], out)), first_answers_size(n, rounds));
        assert_eq!(asked(|out| write_openings(n, rounds, &identities(n, rounds), out)), openings_size(n, rounds));
        assert_eq!(asked(|out| draw_choices(n, rounds, &[], out)), choices_size(n, rounds));
    }
}
