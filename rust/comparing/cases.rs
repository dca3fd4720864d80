//! The cases: which inputs go to which calls, with which rooms.
use crate::case::*;
use crate::inputs::*;
use crate::rule::{encoding, masked, LONGEST};

/// How much is generated: strings up to a length, messages of these lengths into every room, and so many random ones.
#[derive(Clone, Copy)]
pub struct Amount {
    pub short: usize,
    pub every_room: &'static [usize],
    pub edges: usize,
    pub damaged: usize,
    pub millions: usize,
}

pub const FULL: Amount = Amount { short: 6, every_room: &GROUP_ENDS, edges: 1500, damaged: 12000, millions: 3 };
pub const QUICK: Amount = Amount { short: 4, every_room: &[254], edges: 60, damaged: 600, millions: 1 };

const SENTINELS: [u8; 3] = [0x00, 0x02, 0xAA];
pub const FILL: u8 = 0x5A;

/// The lengths at which full groups end, and their neighbours.
const GROUP_ENDS: [usize; 7] = [253, 254, 255, 507, 508, 509, 510];

/// All messages are over the first; the second gives groups of up to four bytes.
const MESSAGES: [u8; 5] = [0x00, 0x01, 0x02, 0xFE, 0xFF];
const GROUPS: [u8; 5] = [0x00, 0x01, 0x02, 0x03, 0x04];

struct Maker<'a> {
    kind: Kind,
    out: &'a mut dyn FnMut(Case),
}

impl Maker<'_> {
    fn put(&mut self, call: Call, source: &[u8], room: usize, sentinel: u8, fill: u8) {
        let source = source.to_vec();
        (self.out)(Case { kind: self.kind, call, sentinel, fill, room, pieces: Vec::new(), source });
    }

    /// The length functions.
    fn lengths(&mut self, n: usize) {
        for call in [Call::Overhead, Call::Length] {
            self.put(call, &(n as u64).to_le_bytes(), 0, 0, FILL);
        }
    }

    /// Every state of the decoder and every byte.
    fn steps(&mut self) {
        for byte in 0..=255 {
            self.put(Call::Step, &[0, 0, byte], 0, 0, FILL);
            for left in 0..=255 {
                self.put(Call::Step, &[1, left, byte], 0, 0, FILL);
                self.put(Call::Step, &[2, left, byte], 0, 0, FILL);
            }
        }
    }

    /// Every encoding call, with rooms from `least` below the needed one to one past it.
    fn encode(&mut self, message: &[u8], least: usize, sentinels: &[u8]) {
        let need = encoding(message).len();
        for room in need.saturating_sub(least)..=need + 1 {
            self.put(Call::Encode, message, room, 0, FILL);
            self.put(Call::TryEncode, message, room, 0, FILL);
            for sentinel in sentinels {
                self.put(Call::Chosen, message, room, *sentinel, FILL);
            }
        }
        for room in (need + 2).saturating_sub(least)..=need + 3 {
            self.put(Call::Around, message, room, 0, FILL);
            self.put(Call::TryAround, message, room, 0, FILL);
        }
    }

    fn pieces(&mut self, call: Call, source: &[u8], room: usize, pieces: &[usize]) {
        let (source, pieces) = (source.to_vec(), pieces.to_vec());
        (self.out)(Case { kind: self.kind, call, sentinel: 0, fill: FILL, room, pieces, source });
    }

    /// The streaming encoder, with rooms from `least` below the needed one to one past it.
    fn encode_pieces(&mut self, message: &[u8], least: usize, pieces: &[usize]) {
        let need = encoding(message).len();
        for room in need.saturating_sub(least)..=need + 1 {
            self.pieces(Call::EncodePieces, message, room, pieces);
        }
        self.pieces(Call::EncodeOpen, message, need, pieces);
    }

    /// The streaming decoder, with rooms from `from` to `to`.
    fn decode_pieces(&mut self, source: &[u8], from: usize, to: usize, pieces: &[usize]) {
        for room in from..=to {
            self.pieces(Call::DecodePieces, source, room, pieces);
        }
    }

    /// Every decoding call on a source, with rooms from `from` to `to`.
    fn decode(&mut self, source: &[u8], from: usize, to: usize, sentinels: &[u8]) {
        for room in from..=to {
            self.put(Call::Decode, source, room, 0, FILL);
        }
        self.put(Call::InPlace, source, source.len(), 0, FILL);
        self.put(Call::InPlaceReport, source, source.len(), 0, FILL);
        for sentinel in sentinels {
            let source = masked(source, *sentinel);
            self.put(Call::InPlaceChosen, &source, source.len(), *sentinel, FILL);
            let mut rooms: Vec<usize> = (from..=to).chain([source.len(), source.len() + 1]).collect();
            rooms.dedup();
            for room in rooms {
                // What stood in the destination must not matter: an old code, an old zero, anything.
                for fill in [FILL, 0x03, 0x00] {
                    self.put(Call::Unchosen, &source, room, *sentinel, fill);
                }
            }
        }
    }
}

/// All messages, and as sources all strings, up to a length.
fn short(most: usize, make: &mut Maker) {
    strings(&MESSAGES, 0..=most, |s| {
        make.encode(s, usize::MAX, &SENTINELS);
        make.decode(s, 0, s.len(), &SENTINELS);
    });
    strings(&GROUPS, 0..=most, |s| make.decode(s, 0, s.len(), &SENTINELS[1..2]));
}

/// The same, streaming, in every cutting; and one byte longer, with the room that is needed.
fn short_pieces(most: usize, make: &mut Maker) {
    strings(&MESSAGES, 0..=most, |s| {
        cuttings(s.len(), 4, |pieces| {
            make.encode_pieces(s, usize::MAX, pieces);
            make.decode_pieces(s, 0, s.len(), pieces);
        })
    });
    strings(&GROUPS, 0..=most, |s| cuttings(s.len(), 3, |pieces| make.decode_pieces(s, 0, s.len(), pieces)));
    strings(&MESSAGES, most + 1..=most + 1, |s| {
        let need = encoding(s).len();
        cuttings(s.len(), 0, |pieces| make.pieces(Call::EncodePieces, s, need, pieces));
    });
    strings(&GROUPS, most + 1..=most + 1, |s| cuttings(s.len(), 0, |pieces| make.pieces(Call::DecodePieces, s, s.len(), pieces)));
}

/// Messages around the lengths at which full groups end: a few into every room, many into the rooms around the needed one.
fn edges(amount: Amount, random: &mut Random, make: &mut Maker) {
    for length in amount.every_room {
        for zeros in [0, 1] {
            let message = with_zeros(random, *length, zeros);
            make.encode(&message, usize::MAX, &[random.byte()]);
            let sentinel = random.byte();
            make.decode(&encoding(&message), 0, length + 1, &[sentinel]);
        }
    }
    for _ in 0..amount.edges {
        let message = edge(random);
        make.encode(&message, 2, &[random.byte()]);
        let sentinel = random.byte();
        make.decode(&encoding(&message), message.len().saturating_sub(2), message.len() + 1, &[sentinel]);
    }
    for _ in 0..10 * amount.edges {
        let message = edge(random);
        make.encode_pieces(&message, 3, &random_pieces(message.len(), random));
        let source = [&encoding(&message)[..], &[0], &encoding(&edge(random)), &[0]].concat();
        make.decode_pieces(&source, message.len().saturating_sub(2), message.len() + 1, &random_pieces(source.len(), random));
    }
}

/// Damaged, truncated and doubled encodings.
fn damaged(amount: Amount, random: &mut Random, make: &mut Maker) {
    for i in 0..amount.damaged {
        let message = if i % 4 == 0 { edge(random) } else { random_short(random) };
        let source = damage(&encoding(&message), random);
        let sentinel = random.byte();
        let most = source.len() + 1;
        let (from, to) = if most < 32 { (0, most) } else { (message.len().saturating_sub(1), message.len() + 1) };
        make.decode(&source, from, to, &[sentinel]);
        make.decode_pieces(&source, from, to, &random_pieces(source.len(), random));
    }
}

/// Around the longest message.
fn millions(amount: Amount, random: &mut Random, make: &mut Maker) {
    for n in (LONGEST - 3..=LONGEST + 3).chain([usize::MAX - 4200000, usize::MAX / 254, usize::MAX - 1, usize::MAX]) {
        make.lengths(n);
    }
    for _ in 0..amount.millions {
        for length in LONGEST - 1..=LONGEST + 1 {
            let message = message(random, length);
            make.encode(&message, 1, &[random.byte()]);
            let sentinel = random.byte();
            make.decode(&encoding(&message), length - 1, length, &[sentinel]);
            let source = damage(&encoding(&message), random);
            make.decode(&source, length, length, &[]);
            make.encode_pieces(&message, 1, &random_pieces(length, random));
            make.decode_pieces(&source, length - 1, length, &random_pieces(source.len(), random));
        }
    }
}

/// All of them, in order.
pub fn all(amount: Amount, out: &mut dyn FnMut(Case)) {
    let mut random = Random(0x1357_9BDF_2468_ACE1);
    let mut make = Maker { kind: Kind::Short, out };
    for n in 0..=2048 {
        make.lengths(n);
    }
    make.steps();
    short(amount.short, &mut make);
    short_pieces(amount.short, &mut make);
    make.kind = Kind::Edge;
    edges(amount, &mut random, &mut make);
    make.kind = Kind::Damaged;
    damaged(amount, &mut random, &mut make);
    make.kind = Kind::Million;
    millions(amount, &mut random, &mut make);
}

/// A few thousand for the stored sample: all shortest ones, random and damaged short ones, and those at which full groups end.
/// A message and a source in two pieces, with the room that each needs.
fn in_two(make: &mut Maker, message: &[u8], source: &[u8], cut: usize) {
    let (of_message, of_source) = (cut.min(message.len()), cut.min(source.len()));
    make.pieces(Call::EncodePieces, message, encoding(message).len(), &[of_message, message.len() - of_message]);
    make.pieces(Call::DecodePieces, source, source.len(), &[of_source, source.len() - of_source]);
}

pub fn sample(out: &mut dyn FnMut(Case)) {
    let mut random = Random(0x2468_ACE1_1357_9BDF);
    let mut make = Maker { kind: Kind::Short, out };
    strings(&[0x00, 0x01, 0x02, 0x03, 0xFF], 0..=3, |s| {
        make.encode(s, 0, &[0xAA]);
        make.decode(s, 0, s.len(), &[0x02]);
        for cut in 0..=s.len() {
            in_two(&mut make, s, s, cut);
        }
    });
    for _ in 0..200 {
        let message = random_short(&mut random);
        make.encode(&message, 0, &[random.byte()]);
        let source = damage(&encoding(&message), &mut random);
        let sentinel = random.byte();
        make.decode(&source, message.len().saturating_sub(1), message.len(), &[sentinel]);
        in_two(&mut make, &message, &source, sentinel as usize % 16);
    }
    for length in GROUP_ENDS {
        for zeros in [0, 1] {
            let message = with_zeros(&mut random, length, zeros);
            let body = encoding(&message);
            make.put(Call::Encode, &message, body.len(), 0, FILL);
            make.put(Call::Around, &message, body.len() + 2, 0, FILL);
            make.put(Call::Decode, &body, length, 0, FILL);
            make.put(Call::Decode, &damage(&body, &mut random), length - 1, 0, FILL);
            make.put(Call::InPlaceReport, &body, body.len(), 0, FILL);
            make.put(Call::Unchosen, &masked(&body, 0x7E), body.len(), 0x7E, FILL);
            in_two(&mut make, &message, &[&body[..], &[0]].concat(), length / 2);
            in_two(&mut make, &message, &damage(&body, &mut random), 254);
        }
    }
}
