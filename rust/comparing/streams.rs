//! The real crate's streaming encoder and decoder, over a case's pieces, and its decoder's state alone.
use crate::case::*;
use crate::real::{encoded, refusal};
use cobs::{CobsDecoder, CobsEncoder, DecodeResult, DecoderState};

/// The start, every piece, also after a refusal, and the end unless the encoding is left open.
pub fn encode(case: &Case, dest: &mut [u8]) -> Vec<Told> {
    let mut encoder = CobsEncoder::new(dest);
    let mut told = vec![done(0, 0)];
    for piece in case.cut() {
        told.push(encoded(encoder.push(piece).map(|()| 0)));
    }
    if case.call == Call::EncodePieces {
        told.push(done(encoder.finalize(), 0));
    }
    told
}

/// One byte to a state: the byte that goes on and where in the frame it stands, or 01's refusal; and the state after it. The source is
/// the state's number, its bytes left, and the byte.
pub fn step(case: &Case) -> Vec<Told> {
    let (left, byte) = (case.source[1], case.source[2]);
    let mut state = match case.source[0] {
        0 => DecoderState::Idle,
        1 => DecoderState::Grab(left),
        _ => DecoderState::GrabChain(left),
    };
    let gave = match state.feed(byte) {
        Ok(DecodeResult::NoData) => done(0, 0),
        Ok(DecodeResult::DataStart) => done(0, 1),
        Ok(DecodeResult::DataComplete) => done(0, 2),
        Ok(DecodeResult::DataContinue(b)) => done(b as usize, 3),
        Err(error) => refusal(error),
    };
    let after = match state {
        DecoderState::Idle => told(0, 0, 0),
        DecoderState::Grab(left) => told(1, left as usize, 0),
        DecoderState::GrabChain(left) => told(2, left as usize, 0),
    };
    vec![gave, after]
}

/// A decoder, and another one fed byte by byte: the first does not say how many bytes a refusal has used.
struct Pair<'a> {
    pushed: CobsDecoder<'a>,
    fed: CobsDecoder<'a>,
}

impl Pair<'_> {
    /// How many bytes are used up to the first frame or refusal, if there is one.
    fn used(&mut self, piece: &[u8]) -> Option<usize> {
        piece.iter().position(|b| !matches!(self.fed.feed(*b), Ok(None))).map(|i| i + 1)
    }

    fn push(&mut self, piece: &[u8]) -> Told {
        let used = self.used(piece);
        match self.pushed.push(piece) {
            Ok(None) => refused(MORE),
            Ok(Some(report)) => done(report.frame_size(), report.parsed_size()),
            Err(error) => Told { second: used.unwrap_or(0) as u64, ..refusal(error) },
        }
    }
}

/// What is left of the pieces, how many bytes of the first were dropped, and what was told so far.
struct Rest<'a> {
    pieces: Vec<&'a [u8]>,
    dropped: usize,
    told: Vec<Told>,
}

impl Rest<'_> {
    /// The next piece, its first `used` bytes gone; the piece is over when none is left.
    fn shorten(&mut self, used: usize) {
        let piece = &mut self.pieces[0];
        *piece = &piece[used..];
        if piece.is_empty() {
            self.pieces.remove(0);
        }
    }

    /// Pushes, and pushes the rest of a piece again; true where it stops at a TargetBufTooSmall.
    fn through(&mut self, pair: &mut Pair, stopping: bool) -> bool {
        while let Some(piece) = self.pieces.first() {
            let mut told = pair.push(piece);
            let mut used = piece.len();
            if told.number != MORE {
                used = told.second as usize;
                told.second += self.dropped as u64; // dropped by this very push
            }
            self.dropped = 0;
            self.told.push(told);
            self.shorten(used);
            if stopping && told.number == TARGET_BUF_TOO_SMALL {
                return true;
            }
        }
        false
    }

    /// Drops everything through the next zero.
    fn skip(&mut self) {
        while let Some(piece) = self.pieces.first() {
            match piece.iter().position(|b| *b == 0) {
                Some(at) if at + 1 < piece.len() => {
                    self.dropped = at + 1;
                    return self.shorten(at + 1);
                }
                zero => {
                    self.told.push(refused(MORE));
                    self.pieces.remove(0);
                    if zero.is_some() {
                        return;
                    }
                }
            }
        }
    }
}

/// Every piece, and its rest again after a frame or a refusal. By 01's rule, everything through the next zero is dropped after a
/// TargetBufTooSmall, and the rest is answered as by a new decoder.
pub fn decode(case: &Case, dest: &mut [u8], by_the_rule: bool) -> Vec<Told> {
    let mut rest = Rest { pieces: case.cut(), dropped: 0, told: Vec::new() };
    loop {
        let mut copy = dest.to_vec();
        let mut pair = Pair { pushed: CobsDecoder::new(dest), fed: CobsDecoder::new(&mut copy) };
        if !rest.through(&mut pair, by_the_rule) {
            return rest.told;
        }
        rest.skip();
    }
}
