//! 01's domain of equality, and which listed difference explains a case outside it.
use crate::case::*;
use crate::real::{self, asked};
use crate::rows::{self, Row};
use crate::rule;

/// What ours must say; and where the Rust says otherwise, the row that lists it, or that none does.
pub struct Due {
    pub said: Said,
    pub within: bool,
    pub otherwise: Option<Option<Row>>,
}

/// Whether 01 demands that the two be equal.
fn within(case: &Case, real: &Said) -> bool {
    match case.call {
        Call::InPlaceChosen => case.source.is_empty() || rule::has_body(&case.source, case.sentinel),
        Call::DecodePieces => real.told.iter().all(|t| t.number != TARGET_BUF_TOO_SMALL),
        Call::EncodePieces | Call::EncodeOpen if rule::empty_after_full(case) => false,
        Call::Overhead | Call::Length => asked(case) <= rule::LONGEST,
        Call::Decode | Call::Step => true,
        Call::InPlace | Call::InPlaceReport => case.source.is_empty() || rule::has_body(&case.source, 0),
        Call::Unchosen => case.room == case.source.len() && rule::has_body(&case.source, case.sentinel),
        _ => case.source.len() <= rule::LONGEST && rule::finished(case).len() <= case.room,
    }
}

/// How many bytes of the destination are in the domain with it. A refusal has no answered bytes.
fn answered(case: &Case, real: &Said) -> usize {
    match (case.call, real.told.last()) {
        (Call::Unchosen, Some(last)) if last.number != 0 => 0,
        (Call::Encode | Call::TryEncode | Call::Around | Call::TryAround | Call::Chosen, Some(last)) => last.first as usize,
        (Call::Unchosen | Call::EncodePieces, Some(last)) => last.first as usize,
        _ => real.dest.len(),
    }
}

/// Inside the domain the Rust's bytes behind the answered ones may differ: 01 leaves those as they were.
fn left_behind(case: &Case, real: &Said, due: &Said, answered: usize) -> Option<Row> {
    match case.call {
        Call::Unchosen if due.told[0].number != 0 => Some(rows::REFUSED_COPIES),
        Call::Unchosen => Some(rows::LEFT_BEHIND),
        _ => past_the_length(real, due, answered),
    }
}

/// The Rust has written 01 at the answered length, and nothing else is otherwise.
fn past_the_length(real: &Said, due: &Said, answered: usize) -> Option<Row> {
    let mut with_01 = due.dest.clone();
    *with_01.get_mut(answered)? = 1;
    (real.dest == with_01).then_some(rows::PAST_THE_LENGTH)
}

/// An encoding that does not fit.
fn no_room(case: &Case, real: Told) -> Option<Row> {
    match (case.call, real.number) {
        (Call::Encode, PANICKED) => Some(rows::ENCODE_PANICS),
        (Call::Around, PANICKED) => Some(rows::AROUND_PANICS),
        (Call::TryAround, PANICKED) => Some(rows::TRY_AROUND_PANICS),
        (Call::Chosen, PANICKED) => Some(rows::CHOSEN_PANICS),
        (Call::TryEncode | Call::TryAround, DEST_BUF_TOO_SMALL) => Some(rows::REFUSED_WRITES),
        (Call::Encode | Call::TryEncode, 0) if real.first as usize != rule::finished(case).len() => None,
        (Call::Encode | Call::TryEncode, 0) if case.source.is_empty() => Some(rows::NOTHING_INTO_NONE),
        (Call::Encode | Call::TryEncode, 0) => Some(rows::LAST_CODE),
        _ => None,
    }
}

/// Pieces of which one is refused, or an empty one after a full group. Up to there both answer alike.
fn pieces(case: &Case, real: &Said, due: &Said) -> Option<Row> {
    if case.room == 0 {
        return Some(rows::START);
    }
    let Some(at) = due.told.iter().position(|t| t.number != 0) else {
        let (mine, theirs) = (due.told.last()?.first as usize, real.told.last()?.first as usize);
        return match theirs.checked_sub(mine)? {
            0 => past_the_length(real, due, mine),
            1 => rule::empty_after_full(case).then_some(rows::EMPTY_PIECE),
            _ => None,
        };
    };
    if real.told[..at] != due.told[..at] {
        return None;
    }
    match (due.told[at].number, real.told[at].number) {
        (TOO_LONG, _) => Some(rows::NO_LIMIT),
        (DEST_BUF_TOO_SMALL, 0) => Some(rows::LAST_CODE_PUSHED),
        (DEST_BUF_TOO_SMALL, DEST_BUF_TOO_SMALL) => Some(rows::REFUSED_WRITES),
        _ => None,
    }
}

/// After a TargetBufTooSmall the Rust refuses again, or takes the rest of the frame for a whole one.
fn after_overfull(real: &Said, due: &Said) -> Option<Row> {
    let full = due.told.iter().position(|t| t.number == TARGET_BUF_TOO_SMALL)?;
    if real.told[..=full] != due.told[..=full] {
        return None;
    }
    let again = real.told.get(full + 1).is_some_and(|t| t.number == TARGET_BUF_TOO_SMALL);
    Some(if again { rows::REFUSES_AGAIN } else { rows::CUT_FRAME })
}

fn outside(case: &Case, real: &Said, due: &Said) -> Option<Row> {
    match case.call {
        Call::EncodePieces | Call::EncodeOpen => pieces(case, real, due),
        Call::DecodePieces => after_overfull(real, due),
        Call::Overhead | Call::Length => Some(rows::LENGTHS),
        Call::Decode | Call::Step => None,
        Call::InPlace | Call::InPlaceReport | Call::InPlaceChosen => Some(rows::EMPTY_BODY),
        Call::Unchosen if case.source.len() < case.room => Some(rows::LONGER),
        Call::Unchosen if case.room < case.source.len() => Some(rows::SHORTER),
        Call::Unchosen => Some(rows::EMPTY_BODY),
        _ if rule::LONGEST < case.source.len() => Some(rows::NO_LIMIT),
        _ => no_room(case, real.told[0]),
    }
}

pub fn due(case: &Case) -> Due {
    let real = real::says(case);
    let rule = rule::says(case);
    if within(case, &real) {
        let n = answered(case, &real);
        let dest = rule::over(&real.dest[..n], case.before());
        let said = Said { told: real.told.clone(), dest };
        let otherwise = if rule.is_some_and(|rule| rule != said) {
            Some(None) // the Rust is not as 01 says
        } else {
            (real != said).then(|| left_behind(case, &real, &said, n))
        };
        return Due { said, within: true, otherwise };
    }
    let said = rule.expect("a rule outside the domain");
    let otherwise = (real != said).then(|| outside(case, &real, &said));
    Due { said, within: false, otherwise }
}
