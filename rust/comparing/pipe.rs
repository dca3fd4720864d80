//! Cases to the server and its answers back, in the form that server.c reads and writes.
use crate::case::*;
use std::io::{Read, Result};

/// Ends what is told.
const END: u8 = 253;

/// The archives' calls, as server.c numbers them.
fn number(call: Call) -> u8 {
    match call {
        Call::Overhead => 0,
        Call::Length => 1,
        Call::Encode | Call::TryEncode => 2,
        Call::Around | Call::TryAround => 3,
        Call::Chosen => 4,
        Call::Decode => 5,
        Call::InPlace | Call::InPlaceReport => 6,
        Call::Unchosen => 7,
        Call::InPlaceChosen => 8,
        Call::EncodePieces => 9,
        Call::EncodeOpen => 10,
        Call::DecodePieces => 11,
        Call::Step => 12,
    }
}

pub fn put(case: &Case, to: &mut Vec<u8>) {
    to.extend_from_slice(&[number(case.call), case.sentinel, case.fill]);
    let lengths = [case.source.len(), case.room, case.pieces.len()];
    for n in lengths.iter().chain(&case.pieces) {
        to.extend_from_slice(&(*n as u32).to_le_bytes());
    }
    to.extend_from_slice(&case.source);
}

fn get<const N: usize>(from: &mut impl Read) -> Result<[u8; N]> {
    let mut bytes = [0; N];
    from.read_exact(&mut bytes)?;
    Ok(bytes)
}

pub fn take(case: &Case, from: &mut impl Read) -> Result<Said> {
    let mut told = Vec::new();
    loop {
        let [number] = get(from)?;
        if number == END {
            break;
        }
        let first = u64::from_le_bytes(get(from)?);
        let second = u64::from_le_bytes(get(from)?);
        told.push(Told { number, first, second });
    }
    // The call for both of the Rust's answers both sizes.
    if case.call == Call::InPlace && told[0].number == 0 {
        told[0].second = 0;
    }
    let mut dest = vec![0; case.room];
    from.read_exact(&mut dest)?;
    Ok(Said { told, dest })
}
