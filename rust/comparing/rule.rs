//! What 01 says to a case, written from 01's words: ours must say it where the Rust need not be followed, and the Rust where it must.
use crate::case::*;
use crate::real::asked;
use crate::streams;

pub const LONGEST: usize = 1_048_576;

/// 01, The code: the longest run of nonzero bytes, at most 254; its length plus 1, and the run. Also where the last code stands.
fn groups(message: &[u8]) -> (Vec<u8>, usize) {
    let mut out = Vec::with_capacity(message.len() + message.len() / 254 + 1);
    let mut rest = message;
    loop {
        let run = rest.iter().take(254).take_while(|b| **b != 0).count();
        let last = out.len();
        out.push(run as u8 + 1);
        out.extend_from_slice(&rest[..run]);
        rest = &rest[run..];
        if rest.is_empty() {
            return (out, last);
        }
        if run < 254 {
            rest = &rest[1..]; // the zero; go on even if nothing is left
        }
    }
}

pub fn encoding(message: &[u8]) -> Vec<u8> {
    groups(message).0
}

/// A full group ends the message: its code is FF, and none is open behind it.
fn ends_full(message: &[u8]) -> bool {
    let (encoding, last) = groups(message);
    encoding[last] == 0xFF
}

/// Whether an empty piece follows a full group.
pub fn empty_after_full(case: &Case) -> bool {
    let mut at = 0;
    case.pieces.iter().any(|n| {
        at += n;
        *n == 0 && ends_full(&case.source[..at])
    })
}

/// The finished encoding of a call, sentinels included.
pub fn finished(case: &Case) -> Vec<u8> {
    let plain = encoding(&case.source);
    match case.call {
        Call::Around | Call::TryAround => [&[0][..], &plain, &[0]].concat(),
        Call::Chosen => plain.iter().map(|b| b ^ case.sentinel).collect(),
        _ => plain,
    }
}

/// The in-place rule: the body ends at the first zero or the end. The whole groups' bytes, and the answer with both sizes.
fn in_place(buffer: &[u8]) -> (Vec<u8>, Told) {
    let body = buffer.split(|b| *b == 0).next().unwrap_or(&[]);
    let (mut groups, mut rest) = (Vec::new(), body);
    if buffer.is_empty() {
        return (groups, refused(EMPTY_FRAME));
    }
    while let Some(code) = rest.first() {
        let code = *code as usize;
        if rest.len() < code {
            break;
        }
        groups.extend_from_slice(&rest[1..code]);
        rest = &rest[code..];
        if code != 255 && !rest.is_empty() {
            groups.push(0);
        }
    }
    let size = groups.len();
    let whole = rest.is_empty() && !body.is_empty();
    (groups, if whole { done(size, body.len()) } else { told(INVALID_FRAME, size, 0) })
}

pub fn masked(source: &[u8], sentinel: u8) -> Vec<u8> {
    source.iter().map(|b| b ^ sentinel).collect()
}

/// What may be decoded of a source before its first zero is not empty.
pub fn has_body(source: &[u8], sentinel: u8) -> bool {
    source.first().is_some_and(|b| *b != sentinel)
}

/// `bytes` written over the front of `buffer`.
pub fn over(bytes: &[u8], mut buffer: Vec<u8>) -> Vec<u8> {
    buffer[..bytes.len()].copy_from_slice(bytes);
    buffer
}

/// Into another buffer with a sentinel: refusal 2 before 3, and either leaves the destination as it was.
fn unchosen(case: &Case) -> Said {
    let (groups, answer) = in_place(&masked(&case.source, case.sentinel));
    if answer.number != 0 {
        return Said { told: vec![answer], dest: case.before() };
    }
    if case.room < groups.len() {
        return Said { told: vec![refused(TARGET_BUF_TOO_SMALL)], dest: case.before() };
    }
    Said { told: vec![done(groups.len(), 0)], dest: over(&groups, case.before()) }
}

/// TooLong, then DestBufTooSmall, with nothing changed; else the encoding, and the bytes behind it stay.
fn encode(case: &Case) -> Said {
    let finished = finished(case);
    if LONGEST < case.source.len() {
        return Said { told: vec![refused(TOO_LONG)], dest: case.before() };
    }
    if case.room < finished.len() {
        return Said { told: vec![refused(DEST_BUF_TOO_SMALL)], dest: case.before() };
    }
    Said { told: vec![done(finished.len(), 0)], dest: over(&finished, case.before()) }
}

/// In place; with a sentinel the whole buffer is XORed first. Only one of the three calls answers the parsed size.
fn place(case: &Case) -> Said {
    let buffer = masked(&case.source, if case.call == Call::InPlaceChosen { case.sentinel } else { 0 });
    let (groups, mut answer) = in_place(&buffer);
    if case.call != Call::InPlaceReport {
        answer.second = 0;
    }
    Said { told: vec![answer], dest: over(&groups, buffer) }
}

/// A piece is accepted exactly if all accepted before and it, finished now, fit; a refused one changes nothing. The open code is not
/// written before the end.
fn encode_pieces(case: &Case) -> Said {
    if case.room == 0 {
        return Said { told: vec![refused(DEST_BUF_TOO_SMALL)], dest: case.before() };
    }
    let (mut told, mut accepted) = (vec![done(0, 0)], Vec::new());
    for piece in case.cut() {
        let longer = [&accepted, piece].concat();
        if LONGEST < longer.len() {
            told.push(refused(TOO_LONG));
        } else if case.room < encoding(&longer).len() {
            told.push(refused(DEST_BUF_TOO_SMALL));
        } else {
            told.push(done(0, 0));
            accepted = longer;
        }
    }
    let (mut encoding, last) = groups(&accepted);
    if case.call == Call::EncodePieces {
        told.push(done(encoding.len(), 0));
    } else if encoding[last] != 0xFF {
        encoding[last] = case.fill;
    }
    Said { told, dest: over(&encoding, case.before()) }
}

/// As the Rust until the first TargetBufTooSmall; then 01's rule.
fn decode_pieces(case: &Case) -> Said {
    let mut dest = case.before();
    let told = streams::decode(case, &mut dest, true);
    Said { told, dest }
}

/// n plus n/254 rounded up, or 1 for n = 0; over the longest, TooLong.
fn length(case: &Case) -> Said {
    let n = asked(case);
    let added = if n == 0 { 1 } else { n / 254 + (n % 254 != 0) as usize };
    let told = match case.call {
        _ if LONGEST < n => refused(TOO_LONG),
        Call::Overhead => done(added, 0),
        _ => done(n + added, 0),
    };
    Said { told: vec![told], dest: case.before() }
}

/// Two calls equal the Rust on every input, and have no rule here.
pub fn says(case: &Case) -> Option<Said> {
    Some(match case.call {
        Call::Overhead | Call::Length => length(case),
        Call::InPlace | Call::InPlaceReport | Call::InPlaceChosen => place(case),
        Call::EncodePieces | Call::EncodeOpen => encode_pieces(case),
        Call::DecodePieces => decode_pieces(case),
        Call::Unchosen => unchosen(case),
        Call::Decode | Call::Step => return None,
        _ => encode(case),
    })
}
