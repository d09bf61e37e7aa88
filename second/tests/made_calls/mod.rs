//! The calls of a script, each with what is written for it.
//! Follows the page on replay, its tables.

use crate::script_calls::calls;
use second::bytes::part;
use second::replay::call::Call;
use second::replay::record::{SCHEDULE_BYTES, SEAL_BYTES, STREAM_BYTES};

pub fn made(script: &[u8], answers: &[u8]) -> Vec<(Call, Vec<u8>)> {
    let mut rest = answers;
    let mut made = Vec::new();
    for call in calls(script) {
        let (back, behind) = rest.split_at(written(&call, rest));
        made.push((call, back.to_vec()));
        rest = behind;
    }
    assert!(rest.is_empty(), "there are answers to no call");
    made
}

/// How many bytes are written for the call. Of a find, `answers` has the length.
fn written(call: &Call, answers: &[u8]) -> usize {
    match call {
        Call::SetUp { .. } => 1 + SCHEDULE_BYTES,
        Call::Encipher { buffer, .. }
        | Call::Decipher { buffer, .. }
        | Call::Entry { buffer, .. }
        | Call::LayDown { buffer } => 1 + buffer.room,
        Call::Start { .. } | Call::Finish | Call::TakeUp { .. } => 1 + STREAM_BYTES,
        Call::Piece { buffer, .. } => 9 + buffer.room + STREAM_BYTES,
        Call::KeepSchedule(_) | Call::KeepStream(_) | Call::KeepSeal(_) => 0,
        Call::IsGood { .. } => 1,
        Call::Find { .. } => 4 + u32::from_be_bytes(part(answers, 0)) as usize,
        Call::Put { card, .. } => 1 + card.len(),
        Call::StartSeal | Call::PieceOfSeal { .. } => 1 + SEAL_BYTES,
        Call::WriteSeal { buffer } => 1 + buffer.room + SEAL_BYTES,
        Call::CheckSeal { .. } => 2 + SEAL_BYTES,
        Call::Compare { buffer, .. } => 9 + buffer.room,
    }
}
