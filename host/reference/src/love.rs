//! The Love dialect (document 01, "Love"; source document 004).

use crate::blocks::{all_hex, padded, sum, sum_of};
use crate::card::{Card, Tenths, LOVE_RANGE};
use crate::figures::{four_figures, hex_figures, is_upper_hex, value_of_four};
use crate::numbers::{Number, Reply, ANSWER_ROOM};

/// Shortest frame.
pub const SHORTEST: usize = 7;
/// Longest frame.
pub const LONGEST: usize = 32;
/// Filter characters by the address's hundreds in hex.
pub const FILTER: &[u8; 4] = b"LOVE";

pub(crate) const STX: u8 = 0x02;
pub(crate) const ETX: u8 = 0x03;
pub(crate) const ACK: u8 = 0x06;
pub(crate) const ERROR_MARK: u8 = b'N';
/// STX, filter and two address figures.
pub(crate) const HEAD: usize = 4;
/// Two checksum figures and ETX, or ACK in a reply.
pub(crate) const TAIL: usize = 3;
const DATA_MOST: usize = 10;
pub(crate) const PROCESS_VALUE: &[u8; 2] = b"00";
/// What a read and a write begin with, before the parameter's last figure.
pub(crate) const READ: [u8; 3] = *b"010";
pub(crate) const WRITE: [u8; 3] = *b"020";
/// The parameters' last figures.
const SP1: u8 = b'0';
const SP2: u8 = b'2';
const ALLO: u8 = b'4';
const ALHI: u8 = b'5';
/// The parameters' last figures by their places.
pub(crate) const PARAMETERS: [u8; 4] = [SP1, SP2, ALLO, ALHI];
/// The answer to a write.
pub(crate) const WRITTEN: [u8; 2] = *b"00";
/// The answer of probe 0 at fault.
pub(crate) const FAULT: [u8; 8] = *b"D0000000";

/// A refusal's number and error code.
type Refusal = (Number, [u8; 2]);

const UNDEFINED_COMMAND: Refusal = (Number::Command, *b"01");
const CHECKSUM_ERROR: Refusal = (Number::Check, *b"02");
const ILLEGAL_CHARACTER: Refusal = (Number::Form, *b"04");
const DATA_FIELD_ERROR: Refusal = (Number::Form, *b"05");
const IMPROPER_VALUE: Refusal = (Number::Outside, *b"05");
const VALUE_OUTSIDE: Refusal = (Number::Outside, *b"06");
/// The error code of each refusal.
pub(crate) const ERROR_CODES: [[u8; 2]; 5] = [
    UNDEFINED_COMMAND.1,
    CHECKSUM_ERROR.1,
    ILLEGAL_CHARACTER.1,
    DATA_FIELD_ERROR.1,
    VALUE_OUTSIDE.1,
];

/// Entry: a Love frame.
pub fn love(card: &mut Card, frame: &[u8], answer: &mut [u8]) -> Reply {
    if !card.is_fit() {
        return Reply::silent(Number::Unfit);
    }
    let Some(answer) = answer.first_chunk_mut() else {
        return Reply::silent(Number::ShortBuffer);
    };
    let [STX, _, high, low, data @ .., first, second, ETX] = frame else {
        return Reply::silent(Number::Form);
    };
    if !(SHORTEST..=LONGEST).contains(&frame.len()) {
        return Reply::silent(Number::Form);
    }
    let head = head(card.addresses.love);
    if frame[..HEAD] != head {
        let is_formed = is_upper_hex(*high) && is_upper_hex(*low);
        return Reply::silent(if is_formed { Number::Foreign } else { Number::Form });
    }
    let checksum = high.wrapping_add(*low).wrapping_add(data_sum(data));
    if [*first, *second] != hex_figures(checksum) {
        return send_error(head, CHECKSUM_ERROR, answer);
    }
    match exchange(card, head, data, answer) {
        Ok(reply) => reply,
        // Data that is carried out has hexadecimal figures alone; so this need be asked only here, though it comes first.
        Err(_) if !is_hex(data) => send_error(head, ILLEGAL_CHARACTER, answer),
        Err(refusal) => send_error(head, refusal, answer),
    }
}

/// STX, filter and address figures of the card.
#[inline(always)]
pub(crate) fn head(address: u32) -> [u8; HEAD] {
    let [low, hundreds, ..] = address.to_le_bytes();
    let [first, second] = hex_figures(low);
    [STX, FILTER[usize::from(hundreds & 3)], first, second]
}

/// The sum of the data characters modulo 256; those of a read or write are added one by one.
#[inline(always)]
fn data_sum(data: &[u8]) -> u8 {
    if let Ok(data) = <&[u8; 2]>::try_from(data) {
        sum_of(data)
    } else if let Ok(data) = <&[u8; 4]>::try_from(data) {
        sum_of(data)
    } else if let Ok(data) = <&[u8; DATA_MOST]>::try_from(data) {
        sum_of(data)
    } else {
        sum(&padded(data, 0))
    }
}

/// Whether all data characters are hexadecimal figures of either case.
#[inline(always)]
fn is_hex(data: &[u8]) -> bool {
    all_hex(&padded(data, b'0'))
}

/// The order after the characters.
#[inline(always)]
fn exchange(card: &mut Card, head: [u8; HEAD], data: &[u8], answer: &mut [u8; ANSWER_ROOM]) -> Result<Reply, Refusal> {
    if data == PROCESS_VALUE {
        return Ok(send(head, process_value(card), answer));
    }
    let Some((&[a, b, c, last], rest)) = data.split_first_chunk() else {
        return Err(DATA_FIELD_ERROR);
    };
    match ([a, b, c], rest) {
        (READ, []) => {
            let value = card.love[parameter(last)?];
            Ok(send(head, parameter_figures(value), answer))
        }
        (WRITE, &[a, b, c, d, e, f]) => {
            // The parameter is asked for first: an unknown one is refused whatever the value.
            let place = parameter(last)?;
            card.love[place] = written_value([a, b, c, d], [e, f])?;
            Ok(send(head, WRITTEN, answer))
        }
        _ => Err(refusal(data)),
    }
}

/// Why data of four characters or more is refused that is neither a read nor a write by its length.
#[inline(always)]
fn refusal(data: &[u8]) -> Refusal {
    match *data {
        _ if data.len() > DATA_MOST => DATA_FIELD_ERROR,
        [b'0', b'0', ..] => DATA_FIELD_ERROR,
        [b'0', b'1' | b'2', b'0', SP1 | SP2 | ALLO | ALHI, ..] => DATA_FIELD_ERROR,
        _ => UNDEFINED_COMMAND,
    }
}

/// The place of the parameter that a read or write names by its last figure.
#[inline(always)]
fn parameter(figure: u8) -> Result<usize, Refusal> {
    match figure {
        SP1 => Ok(0),
        SP2 => Ok(1),
        ALLO => Ok(2),
        ALHI => Ok(3),
        _ => Err(UNDEFINED_COMMAND),
    }
}

/// Probe 0 with its status characters; a failed probe is answered too.
#[inline(always)]
fn process_value(card: &Card) -> [u8; 8] {
    let Some(Tenths(tenths)) = card.temperature(0) else {
        return FAULT;
    };
    let sign = if tenths < 0 { b'2' } else { b'0' };
    let [a, b, c, d] = four_figures(u32::from(tenths.unsigned_abs()));
    [b'C', b'0', b'0', sign, a, b, c, d]
}

/// Sign and four figures of a parameter.
#[inline(always)]
fn parameter_figures(value: i32) -> [u8; 6] {
    let sign = if value < 0 { b'1' } else { b'0' };
    let [a, b, c, d] = four_figures(value.unsigned_abs());
    [b'0', sign, a, b, c, d]
}

/// Four decimal figures and a sign, in a parameter's range.
#[inline(always)]
fn written_value(figures: [u8; 4], sign: [u8; 2]) -> Result<i32, Refusal> {
    let magnitude = value_of_four(figures).ok_or(IMPROPER_VALUE)?;
    let value = match sign {
        [b'0', b'0'] => magnitude,
        [b'F' | b'f', b'F' | b'f'] => -magnitude,
        _ => return Err(IMPROPER_VALUE),
    };
    if LOVE_RANGE.excludes(value) {
        return Err(VALUE_OUTSIDE);
    }
    Ok(value)
}

/// The card's checksum of its head and data, which takes in its filter.
#[inline(always)]
pub(crate) fn card_checksum<const N: usize>(&[_, filter, high, low]: &[u8; HEAD], data: &[u8; N]) -> u8 {
    sum_of(&[filter, high, low]).wrapping_add(sum_of(data))
}

/// Sends data between head and checksum.
#[inline(always)]
fn send<const N: usize>(head: [u8; HEAD], data: [u8; N], answer: &mut [u8; ANSWER_ROOM]) -> Reply {
    let [high, low] = hex_figures(card_checksum(&head, &data));
    answer[..HEAD].copy_from_slice(&head);
    answer[HEAD..HEAD + N].copy_from_slice(&data);
    answer[HEAD + N..HEAD + N + TAIL].copy_from_slice(&[high, low, ACK]);
    Reply::answered(HEAD + N + TAIL)
}

/// Sends N and the error code, without a checksum.
#[inline(always)]
fn send_error(head: [u8; HEAD], (number, [high, low]): Refusal, answer: &mut [u8; ANSWER_ROOM]) -> Reply {
    let length = HEAD + 4;
    answer[..HEAD].copy_from_slice(&head);
    answer[HEAD..length].copy_from_slice(&[ERROR_MARK, high, low, ACK]);
    Reply { number, length }
}
