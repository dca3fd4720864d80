//! The rows of docs/DIFFERENCES.md, each by words that stand in it and nowhere else on the page.
pub type Row = &'static str;

pub const LENGTHS: Row = "over 1,048,576 they answer TooLong";
pub const LAST_CODE: Row = "`try_encode` answers 2";
pub const NOTHING_INTO_NONE: Row = "`try_encode` answers 1";
pub const TRY_AROUND_PANICS: Row = "`try_encode_including_sentinels` panics: its last zero has no place";
pub const EMPTY_PIECE: Row = "the empty piece adds a closing 01";
pub const PAST_THE_LENGTH: Row = "`finalize` writes nothing past the answered length";
pub const REFUSED_WRITES: Row = "a refused push changes neither encoder nor buffer";
pub const LAST_CODE_PUSHED: Row = "a piece that would fit only without its last code is refused at once";
pub const ENCODE_PANICS: Row = "`encode` answers DestBufTooSmall";
pub const AROUND_PANICS: Row = "`encode_including_sentinels` answers DestBufTooSmall";
pub const CHOSEN_PANICS: Row = "`encode_with_sentinel` answers DestBufTooSmall";
pub const NO_LIMIT: Row = "TooLong over 1,048,576 bytes, all pieces together";
pub const START: Row = "`Encoder::start` refuses a buffer of length 0";
pub const CUT_FRAME: Row = "streaming, after TargetBufTooSmall";
pub const REFUSES_AGAIN: Row = "the same, more of the frame to come";
pub const EMPTY_BODY: Row = "in place, empty body";
pub const LONGER: Row = "with a sentinel into another buffer, destination longer than the source";
pub const SHORTER: Row = "the same, destination shorter than the source";
pub const REFUSED_COPIES: Row = "the same, refused";
pub const LEFT_BEHIND: Row = "the same, a frame";

const ALL: [Row; 20] = [
    LENGTHS,
    LAST_CODE,
    NOTHING_INTO_NONE,
    TRY_AROUND_PANICS,
    EMPTY_PIECE,
    PAST_THE_LENGTH,
    REFUSED_WRITES,
    LAST_CODE_PUSHED,
    ENCODE_PANICS,
    AROUND_PANICS,
    CHOSEN_PANICS,
    NO_LIMIT,
    START,
    CUT_FRAME,
    REFUSES_AGAIN,
    EMPTY_BODY,
    LONGER,
    SHORTER,
    REFUSED_COPIES,
    LEFT_BEHIND,
];

/// The rows that a page does not have exactly once.
pub fn missing(page: &str) -> Vec<Row> {
    ALL.into_iter().filter(|row| page.matches(row).count() != 1).collect()
}
