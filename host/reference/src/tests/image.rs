use super::{hex, UNTOUCHED};
use crate::card::Card;
use crate::image::{load, save, IMAGE};
use crate::numbers::{Number, Reply};

fn image_of(card: &Card) -> Vec<u8> {
    let mut image = vec![UNTOUCHED; IMAGE + 1];
    assert_eq!(save(card, &mut image), Reply::answered(IMAGE));
    assert_eq!(image.pop(), Some(UNTOUCHED));
    image
}

/// The widths and offsets of document 01, packed by hand at both ends of the first card's image.
#[test]
fn packed_most_significant_first() {
    let image = image_of(&Card::new());
    assert_eq!(image[..6], hex("18 B0 C9 E8 47 EF"));
    assert_eq!(image[IMAGE - 6..], hex("C8 19 03 20 64 00"));
}

#[test]
fn run_292_293_and_294_bytes() {
    let mut image = image_of(&Card::new());
    let mut card = Card::new();
    assert_eq!(load(&mut card, &image[..IMAGE - 1]), Number::ImageLength);
    assert_eq!(load(&mut card, &image), Number::Silent);
    image.push(0);
    assert_eq!(load(&mut card, &image), Number::ImageLength);
    assert_eq!(card, Card::new());
}

#[test]
fn what_is_written_is_read_and_nothing_else() {
    let mut card = Card::new();
    card.addresses.datalink = 31;
    card.addresses.lecom = 99;
    card.addresses.love = 0x3FF;
    for (place, value) in (0..).zip(&mut card.saved) {
        *value = 999_999 - place * 20_833;
    }
    card.saved[95] = -999_999;
    card.kept = [[1_000, 60_000_000, 1_234_567, 2_000], [65_535, 0, 7, 9]];
    card.love = [-400, 870, 0, -1];
    let image = image_of(&card);
    let mut other = Card::new();
    other.buffer[3] = 4;
    let mut expected = other.clone();
    expected.addresses = card.addresses.clone();
    expected.saved = card.saved;
    expected.kept = card.kept;
    expected.love = card.love;
    assert_eq!(load(&mut other, &image), Number::Silent);
    assert_eq!(other, expected);
    assert_eq!(image_of(&other), image);
}

#[test]
fn padding_before_entries() {
    let good = image_of(&Card::new());
    let mut card = Card::new();
    for bit in 0..6 {
        let mut image = good.clone();
        image[0] = 0;
        image[1] = 0;
        image[IMAGE - 1] |= 1 << bit;
        assert_eq!(load(&mut card, &image), Number::ImagePadding);
    }
    let mut image = good.clone();
    image[IMAGE - 1] |= 1 << 6;
    assert_eq!(load(&mut card, &image), Number::Silent);
    assert_eq!(card.love[3], 1);
}

#[test]
fn an_entry_outside_is_12() {
    let good = image_of(&Card::new());
    let card = Card::new();
    let changes: [fn(&mut [u8]); 5] = [
        // LECOM 10, with a zero figure
        |image| image[1] ^= 0x10,
        // Love 0
        |image| (image[1], image[2]) = (0xB0, image[2] & 0x03),
        // register 00h
        |image| (image[2], image[3]) = (image[2] | 0x03, 0xFF),
        // 1120h of channel 3
        |image| image[IMAGE - 10] = 0xFF,
        // ALHI
        |image| image[IMAGE - 3] |= 0x01,
    ];
    for (row, change) in changes.iter().enumerate() {
        let mut image = good.clone();
        change(&mut image);
        let mut lent = card.clone();
        assert_eq!(load(&mut lent, &image), Number::Unfit, "row {row}");
        assert_eq!(lent, card);
    }
}
