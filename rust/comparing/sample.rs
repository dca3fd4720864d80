//! A stored sample of the real crate's answers, one case a line:
//!   CALL ROOM SOURCE = NUMBER FIRST SECOND DESTINATION, with a sentinel after the call's name where it takes one; streaming, with the
//! length of the first of two pieces, the last answer, and, to a decoder, nothing but More before it.
//! The destination starts as ROOM bytes 5A; in place the source is the buffer. Bytes in hexadecimal, - for none. Only cases inside 01's
//! domain of equality: answer and bytes are the Rust's, and bytes that the domain leaves out are 5A as before.
use crate::case::*;
use crate::cases::{self, FILL};
use crate::judge::due;
use std::collections::HashSet;
use std::io::{Result, Write};

fn name(case: &Case) -> Option<String> {
    Some(match case.call {
        Call::Encode => "encode".into(),
        Call::TryEncode => "try_encode".into(),
        Call::Around => "around".into(),
        Call::Chosen => format!("sentinel {:02x}", case.sentinel),
        Call::Decode => "decode".into(),
        Call::InPlaceReport => "in_place".into(),
        Call::Unchosen => format!("unsentinel {:02x}", case.sentinel),
        Call::EncodePieces => format!("pieces {}", case.pieces[0]),
        Call::DecodePieces => format!("frames {}", case.pieces[0]),
        _ => return None,
    })
}

fn hex(bytes: &[u8]) -> String {
    if bytes.is_empty() { "-".into() } else { bytes.iter().map(|b| format!("{b:02x}")).collect() }
}

/// A case's line, if it belongs into the sample.
fn line(case: &Case) -> Option<String> {
    let name = name(case)?;
    let due = due(case);
    if !due.within || case.fill != FILL {
        return None;
    }
    if case.call == Call::DecodePieces && (due.said.told.len() != 2 || due.said.told[0].number != MORE) {
        return None;
    }
    let Told { number, first, second } = *due.said.told.last()?;
    Some(format!("{name} {} {} = {number} {first} {second} {}", case.room, hex(&case.source), hex(&due.said.dest)))
}

pub fn write(mut to: impl Write) -> Result<usize> {
    let (mut lines, mut seen) = (Vec::new(), HashSet::new());
    cases::sample(&mut |case| lines.extend(line(&case).filter(|line| seen.insert(line.clone()))));
    for line in &lines {
        writeln!(to, "{line}")?;
    }
    Ok(lines.len())
}
