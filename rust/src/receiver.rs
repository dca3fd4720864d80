//! A receiving side: both states in a lent list of numbers, with the decode buffer and the table that go with them.
use crate::{calls, told, Answer, Refusal};

/// How many numbers a receiving side keeps.
pub fn state_length() -> usize {
    unsafe { calls::laksovuth_state_length() }
}

/// A receiver of one batch. It holds what it was lent, so that every call gets the same buffer, table and states.
pub struct Receiver<'a> {
    pub(crate) state: &'a mut [u64],
    pub(crate) buffer: &'a mut [u8],
    pub(crate) table: &'a mut [u8],
}

/// What a call came to.
#[derive(Clone, Copy, Debug, PartialEq, Eq)]
pub struct Receipt {
    /// What the piece came to.
    pub answer: Answer,
    /// Bytes of the piece that were taken.
    pub consumed: usize,
}

/// How a batch stands.
#[derive(Clone, Copy, Debug, PartialEq, Eq)]
pub struct Stands {
    /// Open, Missing, Complete, Differs, or the refusal BadState.
    pub answer: Answer,
    /// The weight of the distinct particles that arrived; 0 with BadState.
    pub total: u64,
}

impl<'a> Receiver<'a> {
    /// Opens a batch. `state` has exactly [`state_length`] numbers, `buffer` at least 240 bytes, `table` 16 bytes for each particle.
    ///
    /// ```
    /// use laksovuth::{Receiver, Refusal};
    /// let (mut buffer, mut table) = ([0; 240], [0; 16]);
    /// assert_eq!(Receiver::open(&mut [0; 3], &mut buffer, &mut table, 7).err(), Some(Refusal::BadState));
    /// ```
    pub fn open(
        state: &'a mut [u64],
        buffer: &'a mut [u8],
        table: &'a mut [u8],
        batch: u16,
    ) -> Result<Self, Refusal> {
        told(|_, _| unsafe {
            calls::laksovuth_open(
                state.as_mut_ptr(),
                state.len(),
                batch,
                table.as_ptr(),
                table.len(),
            )
        })
        .size()?;
        Ok(Receiver {
            state,
            buffer,
            table,
        })
    }

    /// Takes a piece up to the end of its first frame or refusal; to be called again while bytes of the piece are left, but not
    /// after [`Refusal::BadState`], which takes none.
    pub fn receive(&mut self, piece: &[u8]) -> Receipt {
        let mut consumed = 0;
        let answer = told(|value, record| unsafe {
            calls::laksovuth_receive(
                self.state.as_mut_ptr(),
                self.state.len(),
                self.buffer.as_mut_ptr(),
                self.buffer.len(),
                self.table.as_mut_ptr(),
                self.table.len(),
                piece.as_ptr(),
                piece.len(),
                value,
                record,
                &mut consumed,
            )
        })
        .answer();
        Receipt { answer, consumed }
    }

    /// How the batch stands, and the weight so far.
    pub fn stands(&self) -> Stands {
        let mut total = 0;
        let answer = told(|missing, _| unsafe {
            calls::laksovuth_stands(
                self.state.as_ptr(),
                self.state.len(),
                self.table.as_ptr(),
                self.table.len(),
                missing,
                &mut total,
            )
        })
        .answer();
        Stands { answer, total }
    }

    /// The table: 16 bytes a slot.
    pub fn table(&self) -> &[u8] {
        self.table
    }
}
