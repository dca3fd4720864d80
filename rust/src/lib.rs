//! COBS frames, particle records and a batch receiver whose every call is proved, for Rust callers.
//!
//! Safe functions over the archive of crate `capi`; what each does is stated in `crates/capi` and proved for every input. No heap, no
//! `std`. The archive is built for x86-64 only today.
//!
//! A board sends a batch, a wire cuts it, and the workstation weighs each particle once:
//!
//! ```
//! use laksovuth::{state_length, write_frame, Answer, Receiver};
//!
//! // Particle 0 of batch 7, weight 1,000, and the close: one particle, total 1,000.
//! let message = [
//!     7, 0, 0, 0, 0, 0, 0, 0, 0, 0, 1, 0, 0xE8, 0x03, 0, 0,
//!     7, 0, 1, 0, 0, 0, 0, 0, 0, 0, 2, 0, 0xE8, 0x03, 0, 0,
//! ];
//! let mut frame = [0; 242];
//! let n = write_frame(&message, &mut frame).unwrap();
//!
//! let (mut state, mut buffer, mut table) = ([0; 128], [0; 240], [0; 16]);
//! let state = &mut state[..state_length()];
//! let mut receiver = Receiver::open(state, &mut buffer, &mut table, 7).unwrap();
//! assert_eq!(receiver.receive(&frame[..5]).answer, Answer::More);
//! assert_eq!(receiver.receive(&frame[5..n]).answer, Answer::Complete);
//! // A repeat changes nothing.
//! assert_eq!(receiver.receive(&frame[..n]).answer, Answer::Complete);
//! assert_eq!(receiver.stands().total, 1_000);
//! assert_eq!(table, message[..16]);
//! ```
#![no_std]
#![warn(missing_docs)]

mod calls;
mod receiver;
#[cfg(test)]
mod tests;

pub use receiver::{state_length, Receipt, Receiver, Stands};

/// Why a call refused: document 01's refusals, in its order.
#[derive(Clone, Copy, Debug, PartialEq, Eq)]
pub enum Refusal {
    /// Nothing to decode.
    EmptyFrame,
    /// A body that ends inside a group, with the bytes decoded before.
    InvalidFrame {
        /// Bytes decoded before the body ran short.
        decoded: usize,
    },
    /// The decoded bytes do not fit. A receiver skips the rest of the frame, through its zero.
    TargetBufTooSmall,
    /// The encoding does not fit; nothing was written.
    DestBufTooSmall,
    /// More than 1,048,576 bytes.
    TooLong,
    /// Numbers that name no states, or states that do not go with this buffer and table; nothing was taken or changed.
    BadState,
    /// A message that is not 1 to 15 records.
    BadLength,
    /// A record that is none, by its number in the frame.
    BadRecord(usize),
    /// A record of an earlier batch.
    Stale(usize),
    /// A record of a later batch.
    Ahead(usize),
    /// A record for which the table has no slot.
    NoRoom(usize),
    /// A particle at or beyond the close's count.
    BeyondClose(usize),
    /// A close unlike the first, or below a particle that was taken.
    Conflict(usize),
}

/// What a piece of the wire came to.
#[derive(Clone, Copy, Debug, PartialEq, Eq)]
pub enum Answer {
    /// The whole piece was taken and no frame ended: it ended inside one, or it was empty, idle zeros, or the rest of a frame that
    /// had no room.
    More,
    /// A frame was taken; the close has not come.
    Open,
    /// A frame was taken; so many particles are missing.
    Missing(usize),
    /// All there, and the total is the sender's.
    Complete,
    /// All there, and the total is not the sender's.
    Differs,
    /// The frame was refused, whole; with BadState nothing was taken at all.
    Refused(Refusal),
}

/// A decoded frame.
#[derive(Clone, Copy, Debug, PartialEq, Eq)]
pub struct Frame {
    /// Decoded bytes.
    pub size: usize,
    /// Bytes of the source that were read.
    pub parsed: usize,
}

/// An answer's number and its two values.
#[derive(Clone, Copy)]
struct Told {
    number: u8,
    first: usize,
    second: usize,
}

impl Told {
    fn refusal(self) -> Refusal {
        match self.number {
            1 => Refusal::EmptyFrame,
            2 => Refusal::InvalidFrame {
                decoded: self.first,
            },
            3 => Refusal::TargetBufTooSmall,
            4 => Refusal::DestBufTooSmall,
            5 => Refusal::TooLong,
            7 => Refusal::BadLength,
            8 => Refusal::BadRecord(self.second),
            9 => Refusal::Stale(self.second),
            10 => Refusal::Ahead(self.second),
            11 => Refusal::NoRoom(self.second),
            12 => Refusal::BeyondClose(self.second),
            13 => Refusal::Conflict(self.second),
            _ => Refusal::BadState,
        }
    }

    fn answer(self) -> Answer {
        match self.number {
            14 => Answer::More,
            15 => Answer::Open,
            16 => Answer::Missing(self.first),
            17 => Answer::Complete,
            18 => Answer::Differs,
            _ => Answer::Refused(self.refusal()),
        }
    }

    fn size(self) -> Result<usize, Refusal> {
        if self.number == 0 {
            Ok(self.first)
        } else {
            Err(self.refusal())
        }
    }

    fn frame(self) -> Result<Frame, Refusal> {
        Ok(Frame {
            size: self.size()?,
            parsed: self.second,
        })
    }
}

// One call with its out-parameters: the number it answers, and the values it leaves.
fn told(call: impl FnOnce(&mut usize, &mut usize) -> u8) -> Told {
    let (mut first, mut second) = (0, 0);
    let number = call(&mut first, &mut second);
    Told {
        number,
        first,
        second,
    }
}

/// How many bytes the encoding of `n` bytes adds at most.
pub fn max_encoding_overhead(n: usize) -> Result<usize, Refusal> {
    told(|size, _| unsafe { calls::laksovuth_max_encoding_overhead(n, size) }).size()
}

/// How long the encoding of `n` bytes is at most.
///
/// ```
/// assert_eq!(laksovuth::max_encoding_length(254), Ok(255));
/// assert_eq!(laksovuth::max_encoding_length(1_048_577), Err(laksovuth::Refusal::TooLong));
/// ```
pub fn max_encoding_length(n: usize) -> Result<usize, Refusal> {
    told(|size, _| unsafe { calls::laksovuth_max_encoding_length(n, size) }).size()
}

/// Writes the encoding of `src` to the front of `dest` and answers its length. A refusal writes nothing.
///
/// ```
/// let mut dest = [0; 8];
/// assert_eq!(laksovuth::encode(&[0x11, 0x22, 0x00, 0x33], &mut dest), Ok(5));
/// assert_eq!(dest[..5], [0x03, 0x11, 0x22, 0x02, 0x33]);
/// assert_eq!(laksovuth::encode(&[0x11], &mut dest[..1]), Err(laksovuth::Refusal::DestBufTooSmall));
/// ```
pub fn encode(src: &[u8], dest: &mut [u8]) -> Result<usize, Refusal> {
    told(|size, _| unsafe {
        calls::laksovuth_encode(src.as_ptr(), src.len(), dest.as_mut_ptr(), dest.len(), size)
    })
    .size()
}

/// The same with a zero before and after, both counted.
///
/// ```
/// let mut dest = [0; 8];
/// assert_eq!(laksovuth::encode_including_sentinels(&[0x11], &mut dest), Ok(4));
/// assert_eq!(dest[..4], [0x00, 0x02, 0x11, 0x00]);
/// ```
pub fn encode_including_sentinels(src: &[u8], dest: &mut [u8]) -> Result<usize, Refusal> {
    told(|size, _| unsafe {
        calls::laksovuth_encode_including_sentinels(
            src.as_ptr(),
            src.len(),
            dest.as_mut_ptr(),
            dest.len(),
            size,
        )
    })
    .size()
}

/// The encoding with each byte XORed with the sentinel.
///
/// ```
/// let mut dest = [0; 8];
/// assert_eq!(laksovuth::encode_with_sentinel(&[0x11], &mut dest, 0xAA), Ok(2));
/// assert_eq!(dest[..2], [0xA8, 0xBB]);
/// ```
pub fn encode_with_sentinel(src: &[u8], dest: &mut [u8], sentinel: u8) -> Result<usize, Refusal> {
    told(|size, _| unsafe {
        calls::laksovuth_encode_with_sentinel(
            src.as_ptr(),
            src.len(),
            dest.as_mut_ptr(),
            dest.len(),
            sentinel,
            size,
        )
    })
    .size()
}

/// Decodes the first frame of `src` to the front of `dest`. Zeros before it are skipped, a missing last zero is supplied, and what was parsed
/// counts both where they are there. After InvalidFrame `dest` holds the bytes it counts; after TargetBufTooSmall it is filled.
///
/// ```
/// use laksovuth::{decode, Frame, Refusal};
/// let mut dest = [0; 8];
/// assert_eq!(decode(&[0x03, 0x11, 0x22, 0x00], &mut dest), Ok(Frame { size: 2, parsed: 4 }));
/// assert_eq!(dest[..2], [0x11, 0x22]);
/// assert_eq!(decode(&[0x05, 0x11, 0x00], &mut dest), Err(Refusal::InvalidFrame { decoded: 1 }));
/// assert_eq!(decode(&[], &mut dest), Err(Refusal::EmptyFrame));
/// ```
pub fn decode(src: &[u8], dest: &mut [u8]) -> Result<Frame, Refusal> {
    told(|size, parsed| unsafe {
        calls::laksovuth_decode(
            src.as_ptr(),
            src.len(),
            dest.as_mut_ptr(),
            dest.len(),
            size,
            parsed,
        )
    })
    .frame()
}

/// Decodes the body at the buffer's front where it stands: up to the first zero, which is not counted as parsed, or the end. No zero before it
/// is skipped. InvalidFrame counts whole groups alone, and their bytes stand at the front.
///
/// ```
/// let mut buf = [0x03, 0x11, 0x22, 0x02, 0x33, 0x00];
/// assert_eq!(laksovuth::decode_in_place(&mut buf).unwrap().size, 4);
/// assert_eq!(buf[..4], [0x11, 0x22, 0x00, 0x33]);
/// ```
pub fn decode_in_place(buf: &mut [u8]) -> Result<Frame, Refusal> {
    told(|size, parsed| unsafe {
        calls::laksovuth_decode_in_place(buf.as_mut_ptr(), buf.len(), size, parsed)
    })
    .frame()
}

/// Decodes a body whose bytes are XORed with the sentinel, and answers its size. A refusal writes nothing.
///
/// ```
/// let mut dest = [0; 8];
/// assert_eq!(laksovuth::decode_with_sentinel(&[0xA8, 0xBB], &mut dest, 0xAA), Ok(1));
/// assert_eq!(dest[0], 0x11);
/// ```
pub fn decode_with_sentinel(src: &[u8], dest: &mut [u8], sentinel: u8) -> Result<usize, Refusal> {
    told(|size, _| unsafe {
        calls::laksovuth_decode_with_sentinel(
            src.as_ptr(),
            src.len(),
            dest.as_mut_ptr(),
            dest.len(),
            sentinel,
            size,
        )
    })
    .size()
}

/// Writes a message of 1 to 15 records of 16 bytes as a frame, its encoding and one zero, and answers their length. 242 bytes of room
/// are always enough; a refusal writes nothing.
///
/// ```
/// assert_eq!(laksovuth::write_frame(&[0; 16], &mut [0; 242]), Err(laksovuth::Refusal::BadRecord(0)));
/// assert_eq!(laksovuth::write_frame(&[], &mut [0; 242]), Err(laksovuth::Refusal::BadLength));
/// ```
pub fn write_frame(message: &[u8], dest: &mut [u8]) -> Result<usize, Refusal> {
    told(|size, record| unsafe {
        calls::laksovuth_write_frame(
            message.as_ptr(),
            message.len(),
            dest.as_mut_ptr(),
            dest.len(),
            size,
            record,
        )
    })
    .size()
}
