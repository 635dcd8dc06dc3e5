//! Frames of each dialect: right ones, and ones put together of parts that are each right or wrong.

pub mod datalink;
pub mod lecom;
pub mod love;
pub mod lucid;

use crate::rng::Rng;
use crate::writer::Addresses;

/// What the scenes shared by all dialects need of one.
pub trait Dialect {
    /// The call that takes the dialect's frames.
    const CALL: &'static str;
    /// Bytes of its shortest frame.
    const SHORTEST: usize;
    /// Bytes of its longest frame.
    const LONGEST: usize;

    /// A frame that the order of document 01 refuses at most for the card's state (nothing pending, probe at fault).
    fn valid(rng: &mut Rng, to: &Addresses) -> Vec<u8>;

    /// A frame whose parts are each right most of the time, so that several faults meet and the order shows.
    fn assembled(rng: &mut Rng, to: &Addresses) -> Vec<u8>;

    /// Makes the check characters right, or LEN where a dialect has no others; too short a frame stays.
    fn seal(frame: &mut [u8]);
}

/// The bytes' sum modulo 256.
pub fn sum(bytes: &[u8]) -> u8 {
    bytes.iter().fold(0, |sum, &byte| sum.wrapping_add(byte))
}

/// A byte as two upper-case hex figures.
pub fn hex_figures(byte: u8) -> [u8; 2] {
    const FIGURES: &[u8; 16] = b"0123456789ABCDEF";
    [FIGURES[usize::from(byte >> 4)], FIGURES[usize::from(byte & 0x0F)]]
}

#[cfg(test)]
mod tests {
    use super::*;
    use crate::model::Model;
    use crate::text::hex_words;

    /// How many frames of each dialect are tried.
    const FRAMES: usize = 3000;

    /// The numbers that a sound card gives to valid frames.
    fn numbers<D: Dialect>() -> Vec<String> {
        let mut rng = Rng::new(11);
        let mut model = Model::new();
        for channel in 0..4 {
            model.line(format!("probe {channel} 90").as_bytes());
        }
        let mut seen = Vec::new();
        for _ in 0..FRAMES {
            let frame = D::valid(&mut rng, &Addresses::START);
            let answer = model.line(format!("{} 38{}", D::CALL, hex_words(&frame)).as_bytes());
            let number = answer.split(' ').next().unwrap_or_default().to_owned();
            assert!(!number.is_empty() && number != "error", "{answer}");
            if !seen.contains(&number) {
                seen.push(number);
            }
        }
        seen.sort();
        seen
    }

    #[test]
    fn the_reference_accepts_valid_datalink_frames() {
        assert_eq!(numbers::<datalink::Datalink>(), ["0", "1", "10"]);
    }

    #[test]
    fn the_reference_accepts_valid_lecom_frames() {
        assert_eq!(numbers::<lecom::Lecom>(), ["0", "1"]);
    }

    #[test]
    fn the_reference_accepts_valid_love_frames() {
        assert_eq!(numbers::<love::Love>(), ["0"]);
    }

    #[test]
    fn the_reference_accepts_valid_lucid_frames() {
        assert_eq!(numbers::<lucid::Lucid>(), ["0"]);
    }

    /// Sealing a valid frame again must not change it.
    fn stays_sealed<D: Dialect>() {
        let mut rng = Rng::new(12);
        for _ in 0..FRAMES {
            let frame = D::valid(&mut rng, &Addresses::START);
            let mut sealed = frame.clone();
            D::seal(&mut sealed);
            assert_eq!(frame, sealed);
        }
    }

    #[test]
    fn valid_frames_are_sealed() {
        stays_sealed::<datalink::Datalink>();
        stays_sealed::<lecom::Lecom>();
        stays_sealed::<love::Love>();
        stays_sealed::<lucid::Lucid>();
    }
}
