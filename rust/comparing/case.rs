//! A case, and what a side says to it.

/// The calls that are compared, by the Rust's names. Two of the Rust's may be one of ours.
#[derive(Clone, Copy, PartialEq, Eq, PartialOrd, Ord, Debug)]
pub enum Call {
    Overhead,
    Length,
    Encode,
    TryEncode,
    Around,
    TryAround,
    Chosen,
    Decode,
    InPlace,
    InPlaceReport,
    InPlaceChosen,
    Unchosen,
    EncodePieces,
    EncodeOpen,
    DecodePieces,
    Step,
}

impl Call {
    pub fn name(self) -> &'static str {
        match self {
            Call::Overhead => "max_encoding_overhead",
            Call::Length => "max_encoding_length",
            Call::Encode => "encode",
            Call::TryEncode => "try_encode",
            Call::Around => "encode_including_sentinels",
            Call::TryAround => "try_encode_including_sentinels",
            Call::Chosen => "encode_with_sentinel",
            Call::Decode => "decode",
            Call::InPlace => "decode_in_place",
            Call::InPlaceReport => "decode_in_place_report",
            Call::InPlaceChosen => "decode_in_place_with_sentinel",
            Call::Unchosen => "decode_with_sentinel",
            Call::EncodePieces => "CobsEncoder, finalized",
            Call::EncodeOpen => "CobsEncoder, left open",
            Call::DecodePieces => "CobsDecoder",
            Call::Step => "DecoderState",
        }
    }
}

/// Where a case comes from.
#[derive(Clone, Copy, PartialEq, Eq, PartialOrd, Ord, Debug)]
pub enum Kind {
    Short,
    Edge,
    Damaged,
    Million,
}

impl Kind {
    pub const ALL: [Kind; 4] = [Kind::Short, Kind::Edge, Kind::Damaged, Kind::Million];

    pub fn name(self) -> &'static str {
        match self {
            Kind::Short => "short",
            Kind::Edge => "edges",
            Kind::Damaged => "damaged",
            Kind::Million => "million",
        }
    }
}

/// What goes into a call. The destination has `room` bytes, each `fill`; in place the source is the buffer. Streaming, the source is
/// cut into pieces of these lengths.
#[derive(Clone, Debug)]
pub struct Case {
    pub kind: Kind,
    pub call: Call,
    pub sentinel: u8,
    pub fill: u8,
    pub room: usize,
    pub pieces: Vec<usize>,
    pub source: Vec<u8>,
}

impl Case {
    /// The source's pieces.
    pub fn cut(&self) -> Vec<&[u8]> {
        let mut rest = &self.source[..];
        let mut pieces = Vec::with_capacity(self.pieces.len());
        for n in &self.pieces {
            let (piece, behind) = rest.split_at(*n);
            pieces.push(piece);
            rest = behind;
        }
        pieces
    }

    /// The destination before the call.
    pub fn before(&self) -> Vec<u8> {
        match self.call {
            Call::InPlace | Call::InPlaceReport | Call::InPlaceChosen => self.source.clone(),
            _ => vec![self.fill; self.room],
        }
    }
}

/// An answer as 01's number and two values (crates/cobs/specs/Answers.antt).
#[derive(Clone, Copy, PartialEq, Eq, Debug)]
pub struct Told {
    pub number: u8,
    pub first: u64,
    pub second: u64,
}

pub const EMPTY_FRAME: u8 = 1;
pub const INVALID_FRAME: u8 = 2;
pub const TARGET_BUF_TOO_SMALL: u8 = 3;
pub const DEST_BUF_TOO_SMALL: u8 = 4;
pub const TOO_LONG: u8 = 5;
pub const MORE: u8 = 14;
/// The Rust panicked. No answer of ours has this number.
pub const PANICKED: u8 = 200;

pub fn told(number: u8, first: usize, second: usize) -> Told {
    Told { number, first: first as u64, second: second as u64 }
}

pub fn done(first: usize, second: usize) -> Told {
    told(0, first, second)
}

pub fn refused(number: u8) -> Told {
    told(number, 0, 0)
}

/// All that a side says: what each call told, and the destination afterwards.
#[derive(Clone, PartialEq, Eq, Debug)]
pub struct Said {
    pub told: Vec<Told>,
    pub dest: Vec<u8>,
}
