//! A call with what it is given, and what comes of it: the same for the archive and the cases of crates/replay.

#[derive(Clone, Copy, Debug, PartialEq, Eq, PartialOrd, Ord)]
pub enum Call {
    /// The reader of a kind.
    Read(u8),
    /// The writer of a kind.
    Write(u8),
    Opening,
    Hash,
    StandIn,
    DrawPermutation,
    DrawChallenges,
    DrawBits,
    DrawChoices,
    MakeKey,
    CheckKey,
    Begin,
    Answer,
    Open,
    GiveUp,
    Verdict,
}

impl Call {
    /// In the order of their numbers in a case of crates/replay, which start at 1.
    pub fn all() -> Vec<Call> {
        let kinds = 1..=8;
        let others = [
            Call::Opening,
            Call::Hash,
            Call::StandIn,
            Call::DrawPermutation,
            Call::DrawChallenges,
            Call::DrawBits,
            Call::DrawChoices,
            Call::MakeKey,
            Call::CheckKey,
            Call::Begin,
            Call::Answer,
            Call::Open,
            Call::GiveUp,
            Call::Verdict,
        ];
        kinds.clone().map(Call::Read).chain(kinds.map(Call::Write)).chain(others).collect()
    }

    /// The buffers that are lent for writing, the record among them, in the order in which they are given.
    pub fn written(self) -> &'static [usize] {
        match self {
            Call::Write(_) | Call::DrawPermutation | Call::DrawChallenges | Call::DrawBits | Call::DrawChoices => &[1],
            Call::MakeKey => &[2],
            Call::StandIn => &[3],
            Call::Begin => &[0, 5],
            Call::Answer => &[0, 6],
            Call::Open => &[0, 5, 6],
            Call::GiveUp => &[0, 1],
            Call::Read(_) | Call::Opening | Call::Hash | Call::CheckKey | Call::Verdict => &[],
        }
    }
}

#[derive(Clone, Debug, PartialEq, Eq, PartialOrd, Ord)]
pub struct Case {
    pub call: Call,
    pub numbers: Vec<usize>,
    /// Those for writing too, as they are before the call; the record is one.
    pub buffers: Vec<Vec<u8>>,
}

#[derive(Clone, Copy, Debug, PartialEq, Eq)]
pub struct Refused {
    pub number: u8,
    pub buffer: u8,
    pub place: usize,
}

#[derive(Clone, Debug, PartialEq, Eq)]
pub struct Outcome {
    /// The values of a success, or a refusal.
    pub told: Result<Vec<usize>, Refused>,
    /// Every buffer as it is after the call.
    pub buffers: Vec<Vec<u8>>,
    /// The digest, 32 zeros where refused; the opening of a round, empty where refused.
    pub handed_back: Option<Vec<u8>>,
}

/// Where the rest of a body starts, after the numbers of its kind.
pub fn body_start(kind: u8) -> usize {
    if matches!(kind, 1 | 6 | 8) {
        6
    } else {
        5
    }
}

pub fn hex(bytes: &[u8]) -> String {
    bytes.iter().map(|byte| format!("{byte:02x}")).collect()
}
