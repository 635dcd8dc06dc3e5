//! Section `characters`: every byte in every place of frames and lines that are read as figures.

use crate::frames::lecom::{self, Lecom};
use crate::frames::love::{self, Love};
use crate::frames::Dialect;
use crate::writer::{Addresses, Writer, ANSWER_ROOM};

/// Values of a byte.
const BYTES: usize = 256;
/// Frames in which a byte is changed, each with its check characters as they were and made right.
const FRAMES: usize = 5;
/// How many of them are LECOM's.
const LECOM_FRAMES: usize = 3;
/// The most bytes that one of the frames has.
const FRAME_MOST: usize = 17;
/// Lines in which a byte is changed: bytes, a number, a signed number.
const LINES: [&[u8]; 3] = [b"datalink 38 7E e3 09 00 10 FC", b"probe 0 90", b"poke love 0 -15"];
/// The most bytes that one of the lines has.
const LINE_MOST: usize = LINES[0].len();
/// Ends a line, so that it stands in none.
const LINE_FEED: u8 = b'\n';
/// Each byte in each place of each frame and line, once; a place past the end changes nothing.
pub const CASES: usize = (2 * FRAMES * FRAME_MOST + LINES.len() * LINE_MOST) * BYTES;

/// What is changed in a frame: the byte of a place, and its check characters, made right if it is sealed.
struct Change {
    place: usize,
    byte: u8,
    sealed: bool,
}

/// Sends the next frame or line.
pub fn scene(out: &mut Writer) {
    let byte = (out.turn % BYTES) as u8;
    let case = out.turn / BYTES;
    if case < 2 * FRAMES * FRAME_MOST {
        let change = Change {
            place: case % FRAME_MOST,
            byte,
            sealed: case / FRAME_MOST % 2 == 1,
        };
        frame(out, case / FRAME_MOST / 2, &change);
    } else {
        let case = case - 2 * FRAMES * FRAME_MOST;
        line(out, case / LINE_MOST % LINES.len(), case % LINE_MOST, byte);
    }
}

/// Sends the frame of a number with a change.
fn frame(out: &mut Writer, number: usize, change: &Change) {
    let frame = frames(&out.addresses)[number].clone();
    if number < LECOM_FRAMES {
        send::<Lecom>(out, frame, change);
    } else {
        send::<Love>(out, frame, change);
    }
}

/// The frames: LECOM's, then Love's.
fn frames(to: &Addresses) -> [Vec<u8>; FRAMES] {
    let unit = lecom::figures(to.lecom);
    [
        lecom::read(unit, b"05"),
        lecom::read(unit, b"!000500"),
        lecom::write(unit, b"05", b"-123"),
        love::request(to.love, b"0100"),
        love::request(to.love, b"02000015fF"),
    ]
}

/// Sends a dialect's frame with a change.
fn send<D: Dialect>(out: &mut Writer, mut frame: Vec<u8>, change: &Change) {
    if let Some(there) = frame.get_mut(change.place) {
        *there = change.byte;
    }
    if change.sealed {
        D::seal(&mut frame);
    }
    out.frame(D::CALL, ANSWER_ROOM, &frame);
}

/// Writes a line with a byte in a place.
fn line(out: &mut Writer, number: usize, place: usize, byte: u8) {
    let mut line = LINES[number].to_vec();
    if let Some(there) = line.get_mut(place).filter(|_| byte != LINE_FEED) {
        *there = byte;
    }
    out.raw(&line);
}

#[cfg(test)]
mod tests {
    use super::*;

    #[test]
    fn no_place_is_left_out() {
        let longest = frames(&Addresses::START).iter().map(Vec::len).max();
        assert_eq!(longest, Some(FRAME_MOST));
        assert_eq!(LINES.iter().map(|line| line.len()).max(), Some(LINE_MOST));
    }
}
