//! Section `image`: images written and read, whole and with every field, bit and length spoiled.

use super::dialect::send_valid;
use crate::card::ranged_places;
use crate::frames::{datalink::Datalink, lecom::Lecom, love::Love, lucid::Lucid};
use crate::image::{fields, Field, Image, IMAGE, PADDING_WIDTH};
use crate::rng::Rng;
use crate::writer::{Writer, TELLING_ROOMS};

/// Scenes of this section.
const SCENES: usize = 7;
/// Bits flipped in one scene.
const FLIPS: usize = 6;
/// Lengths of an image: none, around the right one, and far beyond.
const TELLING_LENGTHS: [usize; 9] = [0, 1, 38, 291, 292, 293, 294, 586, 9000];

/// Writes the next scene.
pub fn scene(out: &mut Writer) {
    let turn = out.turn / SCENES;
    match out.turn % SCENES {
        0 => there_and_back(out),
        1 => flips(out, turn),
        2 => limits(out, turn),
        3 => padding(out, turn),
        4 => lengths(out, turn),
        5 => unfit(out, turn),
        _ => rooms(out),
    }
}

/// Writes the image with enough room.
fn save(out: &mut Writer) {
    out.call(&format!("save {IMAGE}"));
}

/// An image for the card at its present addresses.
fn same_addresses(out: &mut Writer) -> Image {
    Image::fit(&mut out.rng, &out.addresses)
}

/// An image is read, the card changed by every dialect, and the image read again; restarts bring its entries up.
fn there_and_back(out: &mut Writer) {
    save(out);
    out.addresses = Image::fit_addresses(&mut out.rng);
    let bytes = same_addresses(out).bytes();
    out.load(&bytes);
    save(out);
    for _ in 0..3 {
        send_valid::<Lecom>(out);
        send_valid::<Love>(out);
        send_valid::<Lucid>(out);
        send_valid::<Datalink>(out);
    }
    let place = out.rng.pick(&ranged_places());
    if place.table != "address" {
        let value = place.fit_value(&mut out.rng);
        out.poke(place, value);
    }
    save(out);
    out.load(&bytes);
    save(out);
    out.call("restart");
    save(out);
}

/// Every bit of an image flipped in turn; an image as it was follows.
fn flips(out: &mut Writer, turn: usize) {
    let bytes = same_addresses(out).bytes();
    for flip in 0..FLIPS {
        let bit = (FLIPS * turn + flip) % (8 * IMAGE);
        let mut flipped = bytes.clone();
        flipped[bit / 8] ^= 0x80 >> (bit % 8);
        out.load(&flipped);
        save(out);
    }
    out.load(&bytes);
}

/// One field at each end of its range, one past it, and at the ends of its bits.
fn limits(out: &mut Writer, turn: usize) {
    let fields = fields();
    let number = turn % fields.len();
    for bits in telling_bits(&mut out.rng, fields[number]) {
        let mut image = same_addresses(out);
        image.set_bits(number, bits);
        out.load(&image.bytes());
    }
    save(out);
    let bytes = same_addresses(out).bytes();
    out.load(&bytes);
}

/// Bits of a field on both sides of its limits.
fn telling_bits(rng: &mut Rng, field: Field) -> Vec<u64> {
    let most = (1u64 << field.width) - 1;
    let values = (0..4).map(|_| field.place.any_value(rng) + field.offset);
    let mut bits: Vec<u64> = values.map(|value| value.clamp(0, most as i64) as u64).collect();
    bits.extend([0, most]);
    bits
}

/// Every padding and every single bit of it, on images whose entries are fit, spoiled or cut.
fn padding(out: &mut Writer, turn: usize) {
    let mut image = same_addresses(out);
    for bits in [turn % (1 << PADDING_WIDTH), 1 << (turn % PADDING_WIDTH)] {
        image.set_padding(bits as u64);
        out.load(&image.bytes());
    }
    let fields = fields();
    let number = out.rng.below(fields.len());
    let most = (1u64 << fields[number].width) - 1;
    image.set_bits(number, most);
    out.load(&image.bytes());
    let mut longer = image.bytes();
    longer.push(0);
    out.load(&longer);
    let bytes = same_addresses(out).bytes();
    out.load(&bytes);
}

/// Images of every length.
fn lengths(out: &mut Writer, turn: usize) {
    let bytes = same_addresses(out).bytes();
    let swept = turn % (IMAGE + 10);
    let telling = TELLING_LENGTHS[turn % TELLING_LENGTHS.len()];
    for length in [swept, telling, IMAGE - 1, IMAGE + 1, IMAGE] {
        let mut other = bytes.clone();
        other.resize(length, 0);
        out.load(&other);
    }
    let noise = out.rng.bytes(swept);
    out.load(&noise);
    save(out);
    out.set_addresses();
}

/// An unfit card writes and reads no image, whatever the room and the image.
fn unfit(out: &mut Writer, turn: usize) {
    let places = ranged_places();
    let place = places[turn % places.len()];
    let value = place.any_value(&mut out.rng);
    out.poke(place, value);
    save(out);
    out.call("save 292");
    let bytes = same_addresses(out).bytes();
    out.load(&bytes[..IMAGE - 1]);
    out.load(&bytes);
    out.repair(place);
    save(out);
    out.load(&bytes);
}

/// The image written into every room worth a look.
fn rooms(out: &mut Writer) {
    for room in TELLING_ROOMS {
        out.call(&format!("save {room}"));
    }
}
