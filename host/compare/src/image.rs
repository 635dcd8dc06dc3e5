//! The saved image, packed from entries of any value (document 01, "The saved image").

use crate::card::{self, Place, LOVE_PARAMETERS, LOVE_RANGE, PARAMETERS, REGISTERS, REGISTER_RANGE};
use crate::rng::Rng;
use crate::writer::Addresses;

/// Bytes of an image.
pub const IMAGE: usize = 293;
/// Zero bits at its end.
pub const PADDING_WIDTH: usize = 6;

/// One field of the image.
#[derive(Clone, Copy, PartialEq, Eq, Debug)]
pub struct Field {
    /// The entry's table and place on the card.
    pub place: Place,
    /// How many bits it has.
    pub width: usize,
    /// What is added to the entry to make the bits.
    pub offset: i64,
}

/// The image's fields in their order; the padding follows.
pub fn fields() -> Vec<Field> {
    let tables = [
        ("saved", REGISTERS, 21, -REGISTER_RANGE.0),
        ("kept", PARAMETERS, 32, 0),
        ("love", LOVE_PARAMETERS, 11, -LOVE_RANGE.0),
    ];
    let addresses = [5, 7, 10].into_iter().enumerate().map(|(place, width)| Field {
        place: Place {
            table: "address",
            place,
        },
        width,
        offset: 0,
    });
    let entries = tables.into_iter().flat_map(|(table, places, width, offset)| {
        (0..places).map(move |place| Field {
            place: Place { table, place },
            width,
            offset,
        })
    });
    addresses.chain(entries).collect()
}

/// An image as its fields' bits.
#[derive(Clone)]
pub struct Image {
    bits: Vec<u64>,
    padding: u64,
}

impl Image {
    /// An image that a card reads, with these addresses.
    pub fn fit(rng: &mut Rng, addresses: &Addresses) -> Self {
        let mut image = Self {
            bits: fields()
                .iter()
                .map(|field| (field.place.fit_value(rng) + field.offset) as u64)
                .collect(),
            padding: 0,
        };
        image.bits[0] = u64::from(addresses.ia);
        image.bits[1] = u64::from(addresses.lecom);
        image.bits[2] = u64::from(addresses.love);
        image
    }

    /// Addresses that a card can have.
    pub fn fit_addresses(rng: &mut Rng) -> Addresses {
        Addresses {
            ia: rng.between(0, card::IA_MOST) as u8,
            lecom: card::lecom_address(rng) as u8,
            love: card::love_address(rng) as u16,
        }
    }

    /// Sets a field's bits.
    pub fn set_bits(&mut self, field: usize, bits: u64) {
        self.bits[field] = bits;
    }

    /// Sets the bits after the last field.
    pub fn set_padding(&mut self, padding: u64) {
        self.padding = padding;
    }

    /// The image's bytes, most significant bits first.
    pub fn bytes(&self) -> Vec<u8> {
        let widths = fields().into_iter().map(|field| field.width);
        let mut bytes = Vec::with_capacity(IMAGE);
        let mut held = 0;
        let mut count = 0;
        let all = widths.zip(self.bits.iter().copied());
        for (width, bits) in all.chain([(PADDING_WIDTH, self.padding)]) {
            for place in (0..width).rev() {
                held = held << 1 | (bits >> place & 1) as u8;
                count += 1;
                if count == 8 {
                    bytes.push(held);
                    count = 0;
                }
            }
        }
        bytes
    }
}

#[cfg(test)]
mod tests {
    use super::*;
    use crate::model::Model;
    use crate::text::hex_words;

    #[test]
    fn an_image_has_its_length() {
        let bits: usize = fields().iter().map(|field| field.width).sum();
        assert_eq!(bits + PADDING_WIDTH, 8 * IMAGE);
    }

    #[test]
    fn the_reference_reads_fit_images_and_writes_them_back() {
        let mut rng = Rng::new(3);
        let mut model = Model::new();
        for _ in 0..50 {
            let addresses = Image::fit_addresses(&mut rng);
            let words = hex_words(&Image::fit(&mut rng, &addresses).bytes());
            assert_eq!(model.line(format!("load{words}").as_bytes()), "1");
            assert_eq!(model.line(b"save 293"), format!("0{words}"));
        }
    }

    #[test]
    fn the_reference_refuses_padding() {
        let mut image = Image::fit(&mut Rng::new(3), &Addresses::START);
        image.set_padding(1);
        let words = hex_words(&image.bytes());
        assert_eq!(Model::new().line(format!("load{words}").as_bytes()), "14");
    }
}
