//! What the real crate says to a case.
use crate::case::*;
use crate::streams;
use cobs::DecodeError;
use std::cell::Cell;
use std::panic::{catch_unwind, set_hook, AssertUnwindSafe};

thread_local! {
    static CALLING: Cell<bool> = const { Cell::new(false) };
}

/// The crate's panics print nothing; others still do.
pub fn silence() {
    set_hook(Box::new(|info| {
        if !CALLING.get() {
            eprintln!("{info}");
        }
    }));
}

pub fn refusal(error: DecodeError) -> Told {
    match error {
        DecodeError::EmptyFrame => refused(EMPTY_FRAME),
        DecodeError::InvalidFrame { decoded_bytes } => told(INVALID_FRAME, decoded_bytes, 0),
        DecodeError::TargetBufTooSmall => refused(TARGET_BUF_TOO_SMALL),
    }
}

pub fn encoded(answer: Result<usize, cobs::DestBufTooSmallError>) -> Told {
    match answer {
        Ok(length) => done(length, 0),
        Err(_) => refused(DEST_BUF_TOO_SMALL),
    }
}

fn report(answer: Result<cobs::DecodeReport, DecodeError>) -> Told {
    match answer {
        Ok(report) => done(report.frame_size(), report.parsed_size()),
        Err(error) => refusal(error),
    }
}

fn size(answer: Result<usize, DecodeError>) -> Told {
    match answer {
        Ok(size) => done(size, 0),
        Err(error) => refusal(error),
    }
}

/// The length that a case of the two length functions asks about.
pub fn asked(case: &Case) -> usize {
    u64::from_le_bytes(case.source[..8].try_into().unwrap()) as usize
}

fn one_shot(case: &Case, dest: &mut [u8]) -> Told {
    let source = &case.source;
    match case.call {
        Call::Overhead => done(cobs::max_encoding_overhead(asked(case)), 0),
        Call::Length => done(cobs::max_encoding_length(asked(case)), 0),
        Call::Encode => done(cobs::encode(source, dest), 0),
        Call::TryEncode => encoded(cobs::try_encode(source, dest)),
        Call::Around => done(cobs::encode_including_sentinels(source, dest), 0),
        Call::TryAround => encoded(cobs::try_encode_including_sentinels(source, dest)),
        Call::Chosen => done(cobs::encode_with_sentinel(source, dest, case.sentinel), 0),
        Call::Decode => report(cobs::decode(source, dest)),
        Call::InPlace => size(cobs::decode_in_place(dest)),
        Call::InPlaceReport => report(cobs::decode_in_place_report(dest)),
        Call::InPlaceChosen => size(cobs::decode_in_place_with_sentinel(dest, case.sentinel)),
        Call::Unchosen => size(cobs::decode_with_sentinel(source, dest, case.sentinel)),
        Call::EncodePieces | Call::EncodeOpen | Call::DecodePieces | Call::Step => unreachable!("told in streams.rs"),
    }
}

/// Its answers and the destination afterwards; a panic is an answer too.
pub fn says(case: &Case) -> Said {
    let mut dest = case.before();
    CALLING.set(true);
    let told = catch_unwind(AssertUnwindSafe(|| match case.call {
        Call::EncodePieces | Call::EncodeOpen => streams::encode(case, &mut dest),
        Call::DecodePieces => streams::decode(case, &mut dest, false),
        Call::Step => streams::step(case),
        _ => vec![one_shot(case, &mut dest)],
    }));
    CALLING.set(false);
    Said { told: told.unwrap_or(vec![refused(PANICKED)]), dest }
}
