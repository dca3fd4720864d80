//! Every refusal and answer by its name, through the archive.
extern crate std;
use crate::{encode, state_length, write_frame, Answer, Receipt, Receiver, Refusal};
use std::vec;
use std::vec::Vec;

fn particle(batch: u8, index: u8, weight: u16) -> [u8; 16] {
    let w = weight.to_le_bytes();
    [batch, 0, index, 0, 0, 0, 0, 0, 0, 0, 1, 0, w[0], w[1], 0, 0]
}

fn close(batch: u8, count: u8, total: u16) -> [u8; 16] {
    let t = total.to_le_bytes();
    [batch, 0, count, 0, 0, 0, 0, 0, 0, 0, 2, 0, t[0], t[1], 0, 0]
}

/// A message's encoding and a zero, whatever the message.
fn framed(message: &[u8]) -> Vec<u8> {
    let mut frame = vec![0; message.len() + 3];
    let n = encode(message, &mut frame).unwrap();
    frame.truncate(n + 1);
    frame
}

/// What batch 7, on a table of three slots, answers to the last of these messages.
fn last(messages: &[&[u8]]) -> Answer {
    let (mut state, mut buffer, mut table) = (vec![0; state_length()], [0; 240], [0; 48]);
    let mut receiver = Receiver::open(&mut state, &mut buffer, &mut table, 7).unwrap();
    let mut answer = Answer::More;
    for message in messages {
        let frame = framed(message);
        let receipt = receiver.receive(&frame);
        assert_eq!(receipt.consumed, frame.len());
        answer = receipt.answer;
    }
    answer
}

#[test]
fn how_a_batch_stands() {
    let (one, two) = (particle(7, 0, 1_000), particle(7, 1, 2_000));
    assert_eq!(last(&[&one]), Answer::Open);
    assert_eq!(last(&[&one, &close(7, 2, 3_000)]), Answer::Missing(1));
    assert_eq!(
        last(&[&one, &close(7, 2, 3_000), &one, &two]),
        Answer::Complete
    );
    assert_eq!(last(&[&one, &close(7, 2, 2_999), &two]), Answer::Differs);
}

#[test]
fn what_a_frame_is_refused_for() {
    let good = particle(7, 0, 1_000);
    let after = |record: [u8; 16]| last(&[&[good, record].concat()]);
    assert_eq!(last(&[b"\x11"]), Answer::Refused(Refusal::BadLength));
    assert_eq!(after([7; 16]), Answer::Refused(Refusal::BadRecord(1)));
    assert_eq!(after(particle(6, 1, 1)), Answer::Refused(Refusal::Stale(1)));
    assert_eq!(after(particle(8, 1, 1)), Answer::Refused(Refusal::Ahead(1)));
    assert_eq!(
        after(particle(7, 3, 1)),
        Answer::Refused(Refusal::NoRoom(1))
    );
    assert_eq!(
        last(&[&close(7, 1, 0), &particle(7, 1, 1)]),
        Answer::Refused(Refusal::BeyondClose(0))
    );
    assert_eq!(
        last(&[&close(7, 1, 0), &close(7, 1, 1)]),
        Answer::Refused(Refusal::Conflict(0))
    );
}

#[test]
fn what_the_decoder_refuses() {
    let (mut state, mut buffer, mut table) = (vec![0; state_length()], [0; 16], [0; 48]);
    let mut receiver = Receiver::open(&mut state, &mut buffer, &mut table, 7).unwrap();
    let short = Answer::Refused(Refusal::InvalidFrame { decoded: 1 });
    assert_eq!(
        receiver.receive(b"\x03\x11\x00"),
        Receipt {
            answer: short,
            consumed: 3
        }
    );
    assert_eq!(
        receiver.receive(&framed(&[1; 17])).answer,
        Answer::Refused(Refusal::TargetBufTooSmall)
    );
}

#[test]
fn numbers_that_name_no_state_change_nothing() {
    let (mut state, mut buffer, mut table) = (vec![0; state_length()], [5; 240], [5; 48]);
    Receiver::open(&mut state, &mut buffer, &mut table, 7).unwrap();
    state.fill(7);
    let kept = state.clone();
    let mut receiver = Receiver {
        state: &mut state,
        buffer: &mut buffer,
        table: &mut table,
    };
    let bad = Answer::Refused(Refusal::BadState);
    assert_eq!(
        receiver.receive(&framed(&particle(7, 0, 1))),
        Receipt {
            answer: bad,
            consumed: 0
        }
    );
    assert_eq!(
        (receiver.stands().answer, receiver.stands().total),
        (bad, 0)
    );
    assert_eq!((state, buffer, table), (kept, [5; 240], [5; 48]));
}

#[test]
fn what_is_too_long_or_too_small() {
    assert_eq!(
        encode(&vec![1; 1_048_577], &mut vec![0; 1_060_000]),
        Err(Refusal::TooLong)
    );
    assert_eq!(
        write_frame(&particle(7, 0, 1), &mut [0; 17]),
        Err(Refusal::DestBufTooSmall)
    );
}
