//! Tests of the crate over the archive: the cases of tests/model, and the session.
mod archive;
mod case;
mod guard;
mod hashing;
mod random;
mod replay;
mod sessions;
mod sizes;
mod small_system;
