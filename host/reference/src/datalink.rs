//! The Datalink dialect (document 01, "Datalink"; source document 003).

use crate::blocks::{padded, sum, sum_of_first};
use crate::card::{in_memory, is_writable, Card, MEMORY_START, NUM_MOST, PENDING_BITS, PENDING_CHANGE, PENDING_NONE};
use crate::message::{
    data_room, forced, Head, ACKNOWLEDGE, ADDRESS_FIELD, CHANGE, CHANGE_BITS, COMMAND_FIELD, HEAD, INTERROGATE, START,
};
use crate::numbers::{Number, Reply, ANSWER_ROOM};

/// Shortest frame.
pub const SHORTEST: usize = 2;
/// Longest frame.
pub const LONGEST: usize = 38;
/// Entry: a Datalink frame.
pub fn datalink(card: &mut Card, frame: &[u8], answer: &mut [u8]) -> Reply {
    if !card.is_fit() {
        return Reply::silent(Number::Unfit);
    }
    let Some(answer) = answer.first_chunk_mut() else {
        return Reply::silent(Number::ShortBuffer);
    };
    if !(SHORTEST..=LONGEST).contains(&frame.len()) || frame[0] != START {
        return Reply::silent(Number::Form);
    }
    let command = frame[1];
    if u32::from(command & ADDRESS_FIELD) != card.addresses.datalink {
        return Reply::silent(Number::Foreign);
    }
    match command & COMMAND_FIELD {
        INTERROGATE => interrogate(card, frame, answer),
        field @ (CHANGE | CHANGE_BITS) => {
            let kind = if field == CHANGE { PENDING_CHANGE } else { PENDING_BITS };
            change(card, kind, frame, answer)
        }
        ACKNOWLEDGE if frame.len() == SHORTEST => acknowledge(card),
        ACKNOWLEDGE => Reply::silent(Number::Form),
        _ => Reply::silent(Number::Command),
    }
}

/// Answers the bytes asked for; the pending change stays.
#[inline(always)]
fn interrogate(card: &Card, frame: &[u8], answer: &mut [u8; ANSWER_ROOM]) -> Reply {
    let Some((head, &[], lrc)) = Head::take(frame) else {
        return Reply::silent(Number::Form);
    };
    let count = usize::from(head.num());
    if count > NUM_MOST {
        return Reply::silent(Number::Form);
    }
    if head.sum() != lrc {
        return Reply::silent(Number::Check);
    }
    if !in_memory(head.address(), head.num()) {
        return Reply::silent(Number::Unknown);
    }
    let first = usize::from(head.address() - MEMORY_START);
    head.response().write(&card.memory[first..first + count], answer);
    let data = data_room(answer);
    answer[HEAD + count] = head.response_lrc(lrc).wrapping_add(sum_of_first(count, data));
    Reply::answered(HEAD + count + 1)
}

/// Echoes a change, which becomes the pending one.
#[inline(always)]
fn change(card: &mut Card, kind: u8, frame: &[u8], answer: &mut [u8; ANSWER_ROOM]) -> Reply {
    let Some((head, data, lrc)) = Head::take(frame) else {
        return Reply::silent(Number::Form);
    };
    let num = head.num();
    if data.len() != usize::from(num) || kind == PENDING_BITS && !num.is_multiple_of(2) {
        return Reply::silent(Number::Form);
    }
    let block = padded(data, 0);
    if head.sum().wrapping_add(sum(&block)) != lrc {
        return Reply::silent(Number::Check);
    }
    let address = head.address();
    let named = if kind == PENDING_BITS { num / 2 } else { num };
    if !in_memory(address, named) {
        return Reply::silent(Number::Unknown);
    }
    if !is_writable(address, named) {
        return Reply::silent(Number::ReadOnly);
    }
    let pending = &mut card.ports.pending;
    pending.kind = kind;
    pending.address = address;
    pending.num = num;
    pending.data = block;
    head.response().write(data, answer);
    answer[HEAD + data.len()] = head.response_lrc(lrc);
    Reply::answered(frame.len())
}

/// Applies and clears the pending change, which fitness has found to be one that was echoed.
#[inline(always)]
fn acknowledge(card: &mut Card) -> Reply {
    let pending = &mut card.ports.pending;
    if pending.kind == PENDING_NONE {
        return Reply::silent(Number::NothingPending);
    }
    let count = usize::from(pending.num);
    let bytes = &mut card.memory[usize::from(pending.address - MEMORY_START)..];
    if pending.kind == PENDING_CHANGE {
        bytes[..count].copy_from_slice(&pending.data[..count]);
    } else {
        force(&mut bytes[..count / 2], pending.data[..count].as_chunks().0);
    }
    pending.kind = PENDING_NONE;
    Reply::silent(Number::Silent)
}

/// Forces bytes by masks and states, eight at a time as far as there are eight.
#[inline]
fn force(bytes: &mut [u8], pairs: &[[u8; 2]]) {
    let (eights, rest) = bytes.as_chunks_mut::<8>();
    let (eight_pairs, rest_pairs) = pairs.as_chunks::<8>();
    for (eight, pairs) in eights.iter_mut().zip(eight_pairs) {
        force_each(eight, pairs);
    }
    force_each(rest, rest_pairs);
}

#[inline]
fn force_each(bytes: &mut [u8], pairs: &[[u8; 2]]) {
    for (byte, &[mask, state]) in bytes.iter_mut().zip(pairs) {
        *byte = forced(*byte, mask, state);
    }
}
