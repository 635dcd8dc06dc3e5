//! A frame in the making: its bytes on their way into the part frame and out of it, as many as possible at once.

use super::{marks, Received};
use crate::card::Part;

/// What following a frame comes to: the call's end, or the frame is dropped and the next may begin at a place or behind it.
pub type Followed = Result<Received, usize>;

/// The bytes of a call that belong to a frame: those from a place on.
#[derive(Clone, Copy)]
pub struct Run<'a, const LONGEST: usize> {
    /// All bytes of the call.
    pub bytes: &'a [u8],
    /// The first byte that belongs to the frame.
    pub from: usize,
    /// How many bytes of the frame came in earlier calls.
    pub before: usize,
}

impl<'a, const LONGEST: usize> Run<'a, LONGEST> {
    /// A frame that goes on behind the bytes collected.
    #[inline(always)]
    pub fn behind(part: &Part<LONGEST>, bytes: &'a [u8]) -> Self {
        Self {
            bytes,
            from: 0,
            before: usize::from(part.count),
        }
    }

    /// A frame that begins at a place.
    #[inline(always)]
    fn begun(from: usize, bytes: &'a [u8]) -> Self {
        Self { bytes, from, before: 0 }
    }

    /// The bytes of the call up to the longest frame's end.
    #[inline(always)]
    pub fn within(self) -> &'a [u8] {
        let past = self.from + LONGEST - self.before;
        &self.bytes[..self.bytes.len().min(past)]
    }

    /// Stores the frame's bytes before a place.
    #[inline(always)]
    fn keep(self, place: usize, part: &mut Part<LONGEST>) {
        let kept = &self.bytes[self.from..place];
        copy::<LONGEST, 1>(kept, [&mut part.bytes[self.before..self.before + kept.len()]]);
    }

    /// The byte at a place starts the frame anew.
    #[inline(always)]
    pub fn anew(self, place: usize, part: &mut Part<LONGEST>) -> Self {
        self.keep(place, part);
        Self::begun(place, self.bytes)
    }

    /// The byte at a place drops the frame; the next one may begin at another place or behind it.
    #[inline(always)]
    pub fn dropped(self, place: usize, next: usize, part: &mut Part<LONGEST>) -> Followed {
        self.keep(place, part);
        Err(next)
    }

    /// All bytes were taken and the frame is not finished.
    #[inline(always)]
    pub fn end(self, part: &mut Part<LONGEST>) -> Followed {
        let taken = self.bytes.len();
        self.keep(taken, part);
        part.count = (self.before + taken - self.from) as u16;
        Ok(Received::collected(taken))
    }

    /// The byte at a place finishes the frame, which is handed over. The receiver is then at rest.
    #[inline(always)]
    pub fn finish(self, place: usize, part: &mut Part<LONGEST>, frame: &mut [u8; LONGEST]) -> Followed {
        let kept = &self.bytes[self.from..place];
        let last = self.before + kept.len();
        part.count = 0;
        if self.before == 0 {
            copy::<LONGEST, 2>(kept, [&mut part.bytes[..last], &mut frame[..last]]);
        } else {
            copy::<LONGEST, 1>(kept, [&mut part.bytes[self.before..last]]);
            copy::<LONGEST, 1>(&part.bytes[..last], [&mut frame[..last]]);
        }
        frame[last] = self.bytes[place];
        Ok(Received::finished(place + 1, last + 1))
    }

    /// The frame has this length: it is finished or goes on.
    #[inline(always)]
    pub fn counted(self, length: usize, part: &mut Part<LONGEST>, frame: &mut [u8; LONGEST]) -> Followed {
        let last = self.from + length - 1 - self.before;
        if last < self.bytes.len() {
            self.finish(last, part, frame)
        } else {
            self.end(part)
        }
    }
}

/// Follows the frames that begin with the start byte at a place or behind it, until one is finished or the bytes end.
/// Before that place the receiver is at rest.
#[inline(always)]
pub fn follow_from<'a, const LONGEST: usize>(
    place: usize,
    start: u8,
    bytes: &'a [u8],
    part: &mut Part<LONGEST>,
    mut follow: impl FnMut(Run<'a, LONGEST>, &mut Part<LONGEST>) -> Followed,
) -> Received {
    let mut place = place;
    loop {
        if bytes.get(place) != Some(&start) {
            place = marks::find_equal(bytes, place, start);
            if place == bytes.len() {
                part.count = 0;
                return Received::collected(place);
            }
        }
        match follow(Run::begun(place, bytes), part) {
            Ok(received) => return received,
            Err(next) => place = next,
        }
    }
}

/// Copies bytes, at most `MOST`, to places of their length. Few go in two blocks that may overlap: the C library's copy
/// takes more instructions.
#[inline(always)]
fn copy<const MOST: usize, const PLACES: usize>(from: &[u8], to: [&mut [u8]; PLACES]) {
    let count = from.len();
    if count < 4 {
        if count < 2 {
            copy_ends::<1, PLACES>(from, to);
        } else {
            copy_ends::<2, PLACES>(from, to);
        }
    } else if count < 16 {
        if count < 8 {
            copy_ends::<4, PLACES>(from, to);
        } else {
            copy_ends::<8, PLACES>(from, to);
        }
    } else if count <= 32 {
        copy_ends::<16, PLACES>(from, to);
    } else if MOST <= 64 || count <= 64 {
        copy_ends::<32, PLACES>(from, to);
    } else {
        copy_many(from, to);
    }
}

/// Copies the first and the last N bytes, if there are so many.
#[inline(always)]
fn copy_ends<const N: usize, const PLACES: usize>(from: &[u8], to: [&mut [u8]; PLACES]) {
    let (Some(&first), Some(&last)) = (from.first_chunk::<N>(), from.last_chunk::<N>()) else {
        return;
    };
    for to in to {
        if let Some(to) = to.first_chunk_mut() {
            *to = first;
        }
        if let Some(to) = to.last_chunk_mut() {
            *to = last;
        }
    }
}

/// Copies more than 64 bytes, to two places at once.
#[inline(always)]
fn copy_many<const PLACES: usize>(from: &[u8], mut to: [&mut [u8]; PLACES]) {
    if let [one, other] = &mut to[..] {
        let places = one.as_chunks_mut::<32>().0.iter_mut().zip(other.as_chunks_mut().0);
        for (block, (one, other)) in from.as_chunks().0.iter().zip(places) {
            *one = *block;
            *other = *block;
        }
        copy_ends::<32, PLACES>(from, to);
    } else {
        for to in to {
            to.copy_from_slice(from);
        }
    }
}
