//! The saved image (document 01, "The saved image").
//!
//! Fields are packed and taken through words of 64 bits, most significant first. Eight registers are 168 bits, 21 bytes
//! exactly: so each group of eight begins at the same bit of its first byte, and every shift is a constant.

use std::array::from_fn;

use crate::card::{Addresses, Card, Parameters, CHANNELS, LOVE_RANGE, PARAMETER_RANGES, REGISTERS, REGISTER_RANGE};
use crate::numbers::{Number, Reply};

/// Bytes of an image.
pub const IMAGE: usize = 293;

const LECOM_WIDTH: u32 = 7;
const LOVE_WIDTH: u32 = 10;
const REGISTER_WIDTH: u32 = 21;
const LOVE_PARAMETER_WIDTH: u32 = 11;
const PADDING_WIDTH: u32 = 6;

/// Where the registers' first byte is; its upper six bits belong to the addresses.
const REGISTERS_PLACE: usize = 2;
/// Registers of a group, and its bytes.
const GROUP: usize = 8;
const GROUP_BYTES: usize = 21;
/// Groups that the loop which puts them, and that which takes them, has in one turn.
const PUT_TURN: usize = 6;
const TAKE_TURN: usize = 3;
const TAKE_TURNS: usize = REGISTERS / GROUP / TAKE_TURN;
/// Where the saved parameters' first byte is; its upper six bits belong to the last register.
const KEPT_PLACE: usize = REGISTERS_PLACE + REGISTERS / GROUP * GROUP_BYTES;
/// Bits of a byte that belong to the field before, wherever registers and parameters begin.
const BEFORE_WIDTH: u32 = 6;

/// Entry: write the image.
pub fn save(card: &Card, image: &mut [u8]) -> Reply {
    if !card.is_fit() {
        return Reply::silent(Number::Unfit);
    }
    let Some(image) = image.first_chunk_mut() else {
        return Reply::silent(Number::ShortBuffer);
    };
    let Addresses { datalink, lecom, love } = card.addresses;
    let addresses = (datalink << LECOM_WIDTH | lecom) << LOVE_WIDTH | love;
    image[..REGISTERS_PLACE].copy_from_slice(&((addresses >> BEFORE_WIDTH) as u16).to_be_bytes());
    let last = put_registers(u64::from(addresses), &card.saved, image);
    let last = put_kept(last, &card.kept, image);
    put_love(last, &card.love, image);
    Reply::answered(IMAGE)
}

/// Puts a word at a place.
#[inline(always)]
fn put(image: &mut [u8; IMAGE], place: usize, word: u64) {
    image[place..place + 8].copy_from_slice(&word.to_be_bytes());
}

/// Puts the registers after the lowest bits of the field before; gives the word that ends with the last register.
#[inline(always)]
fn put_registers(before: u64, registers: &[i32; REGISTERS], image: &mut [u8; IMAGE]) -> u64 {
    /// 999,999 as each of two fields.
    const TWO: u64 = ((1 << REGISTER_WIDTH) + 1) * REGISTER_RANGE.least.unsigned_abs() as u64;
    // A word that ends with two registers. The sum of the values as they are, negative ones too, is set right at its end.
    let ended = |word: u64, first: i32, second: i32| {
        let word = (word << REGISTER_WIDTH).wrapping_add(i64::from(first) as u64);
        (word << REGISTER_WIDTH).wrapping_add((i64::from(second) as u64).wrapping_add(TWO))
    };
    let field = |value: i32| u64::from((value - REGISTER_RANGE.least) as u32);
    // Three words of a group: 6 bits of before, 21, 21 and 16; 5, 21, 21 and 17; 4, 21 and 21, whose last six begin the
    // next group and are put again with it.
    let mut last = before;
    let mut place = REGISTERS_PLACE;
    for groups in registers.as_chunks::<{ PUT_TURN * GROUP }>().0 {
        for &[a, b, c, d, e, f, g, h] in groups.as_chunks::<GROUP>().0 {
            let (c, f) = (field(c), field(f));
            put(image, place, ended(last, a, b) << 16 | c >> 5);
            put(image, place + 8, ended(c, d, e) << 17 | f >> 4);
            last = ended(f, g, h);
            put(image, place + 16, last << 18);
            place += GROUP_BYTES;
        }
    }
    last
}

/// Puts the saved parameters, a channel to a word; gives the last channel's.
#[inline(always)]
fn put_kept(before: u64, [first, second]: &Parameters, image: &mut [u8; IMAGE]) -> u64 {
    let mut last = before;
    for channel in 0..CHANNELS {
        let word = u64::from(first[channel]) << 32 | u64::from(second[channel]);
        put(
            image,
            KEPT_PLACE + 8 * channel,
            last << (64 - BEFORE_WIDTH) | word >> BEFORE_WIDTH,
        );
        last = word;
    }
    last
}

/// Puts the Love parameters and the padding: the last word, which begins in the saved parameters.
#[inline(always)]
fn put_love(before: u64, love: &[i32; 4], image: &mut [u8; IMAGE]) {
    let word = love.iter().fold(before, |word, &value| {
        word << LOVE_PARAMETER_WIDTH | u64::from((value - LOVE_RANGE.least) as u32)
    });
    put(image, IMAGE - 8, word << PADDING_WIDTH);
}

/// Entry: read the image. Order: the card as lent (12), 13, 14, an entry of the image outside its range (12).
pub fn load(card: &mut Card, image: &[u8]) -> Number {
    if !card.is_fit() {
        return Number::Unfit;
    }
    let Ok(image) = <&[u8; IMAGE]>::try_from(image) else {
        return Number::ImageLength;
    };
    let last = word(image, IMAGE - 8);
    if last & ((1 << PADDING_WIDTH) - 1) != 0 {
        return Number::ImagePadding;
    }
    let fields: [[[i32; GROUP]; TAKE_TURN]; TAKE_TURNS] =
        from_fn(|turn| from_fn(|group| group_of(image, TAKE_TURN * turn + group)));
    let fields = fields.as_flattened().as_flattened();
    if fields
        .iter()
        .fold(false, |any, &field| any | (field > REGISTER_FIELD_MOST))
    {
        return Number::Unfit;
    }
    let (addresses, kept, love) = (addresses_of(word(image, 0)), kept_of(image), love_of(last));
    let is_outside = LOVE_RANGE.excludes_any(&love)
        || PARAMETER_RANGES[0].excludes_any_unsigned(&kept[0])
        || PARAMETER_RANGES[1].excludes_any_unsigned(&kept[1]);
    if is_outside || !addresses.is_fit() {
        return Number::Unfit;
    }
    card.addresses = addresses;
    for (entry, field) in card.saved.iter_mut().zip(fields) {
        *entry = field + REGISTER_RANGE.least;
    }
    card.kept = kept;
    card.love = love;
    Number::Silent
}

/// The most value of a register's field.
const REGISTER_FIELD_MOST: i32 = REGISTER_RANGE.most - REGISTER_RANGE.least;

/// The word at a place.
#[inline(always)]
fn word(image: &[u8; IMAGE], place: usize) -> u64 {
    let mut bytes = [0; 8];
    bytes.copy_from_slice(&image[place..place + 8]);
    u64::from_be_bytes(bytes)
}

/// The lowest bits of a word.
#[inline(always)]
fn lowest(word: u64, width: u32) -> u32 {
    (word & ((1 << width) - 1)) as u32
}

#[inline(always)]
fn addresses_of(first: u64) -> Addresses {
    Addresses {
        datalink: (first >> 59) as u32,
        lecom: lowest(first >> 52, LECOM_WIDTH),
        love: lowest(first >> 42, LOVE_WIDTH),
    }
}

/// The fields of a group of registers, not yet judged: two from each of four words.
#[inline(always)]
fn group_of(image: &[u8; IMAGE], group: usize) -> [i32; GROUP] {
    // The pairs begin at the bits 6, 48, 90 and 132 of the group.
    let field = |word: u64, below: u32| lowest(word >> below, REGISTER_WIDTH) as i32;
    let place = REGISTERS_PLACE + GROUP_BYTES * group;
    let [a, b, c, d] = [0, 6, 11, 16].map(|offset| word(image, place + offset));
    [
        field(a, 37),
        field(a, 16),
        field(b, 43),
        field(b, 22),
        field(c, 41),
        field(c, 20),
        field(d, 39),
        field(d, 18),
    ]
}

#[inline(always)]
fn kept_of(image: &[u8; IMAGE]) -> Parameters {
    let mut kept = Parameters::default();
    for channel in 0..CHANNELS {
        for (parameter, values) in kept.iter_mut().enumerate() {
            values[channel] = (word(image, KEPT_PLACE + 8 * channel + 4 * parameter) >> (32 - BEFORE_WIDTH)) as u32;
        }
    }
    kept
}

#[inline(always)]
fn love_of(last: u64) -> [i32; 4] {
    [39, 28, 17, 6].map(|below| lowest(last >> below, LOVE_PARAMETER_WIDTH) as i32 + LOVE_RANGE.least)
}
