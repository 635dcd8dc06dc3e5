//! Document 02, M-100: what all receivers have in common. Each dialect's own rules stand in a file of their own.

mod datalink_rules;
mod division;
mod lecom_rules;
mod love_rules;
mod lucid_rules;
mod plain;

use self::plain::{Plain, Step};
use super::{hex, UNTOUCHED};
use crate::card::{governor, restart, set_probe, Card, Governor, PENDING_CHANGE};
use crate::numbers::{Number, Reply};
use crate::receivers::{
    quiet_datalink, quiet_lecom, quiet_love, quiet_lucid, receive_datalink, receive_lecom, receive_love, receive_lucid,
    Received,
};
use crate::{datalink, image, lecom, love, lucid};

/// A dialect's entry.
type Entry = fn(&mut Card, &[u8], &mut [u8]) -> Reply;

/// A dialect's receiver as the tests see it.
#[derive(Clone, Copy)]
struct Line {
    receive: fn(&mut Card, &[u8], &mut [u8]) -> Received,
    quiet: fn(&mut Card) -> Number,
    part: fn(&mut Card) -> (&mut u16, &mut [u8]),
    longest: usize,
    /// What the paper has a byte do behind those collected.
    step: fn(&[u8], u8) -> Step,
    /// A part frame that bytes lead to.
    begun: &'static str,
    /// Bytes behind it that finish the frame.
    rest: &'static str,
    /// Bytes that tell, for random lines.
    telling: &'static [u8],
}

const DATALINK: Line = Line {
    receive: receive_datalink,
    quiet: quiet_datalink,
    part: |card| (&mut card.ports.datalink.count, &mut card.ports.datalink.bytes),
    longest: 38,
    step: plain::datalink,
    begun: "7E E3 09 00",
    rest: "10 FC",
    telling: &[0x7E, 0x83, 0xA3, 0xC4, 0xE3, 0x20, 0x60, 0x00, 0x01, 0x02, 32, 33],
};
const LECOM: Line = Line {
    receive: receive_lecom,
    quiet: quiet_lecom,
    part: |card| (&mut card.ports.lecom.count, &mut card.ports.lecom.bytes),
    longest: 25,
    step: plain::lecom,
    begun: "04 31 31 02 36 37 31 03",
    rest: "33",
    telling: &[0x02, 0x03, 0x04, 0x05, 0x06, 0x31],
};
const LOVE: Line = Line {
    receive: receive_love,
    quiet: quiet_love,
    part: |card| (&mut card.ports.love.count, &mut card.ports.love.bytes),
    longest: 32,
    step: plain::love,
    begun: "02 4C 33 32 30 30",
    rest: "43 35 03",
    telling: &[0x01, 0x02, 0x03, 0x06, 0x30],
};
const LUCID: Line = Line {
    receive: receive_lucid,
    quiet: quiet_lucid,
    part: |card| (&mut card.ports.lucid.count, &mut card.ports.lucid.bytes),
    longest: 259,
    step: plain::lucid,
    begun: "40 00 10 02 00",
    rest: "01",
    telling: &[0, 1, 2, 5, 255],
};
const LINES: [Line; 4] = [DATALINK, LECOM, LOVE, LUCID];

/// The card without its part frames.
fn without_parts(card: &Card) -> Card {
    let mut card = card.clone();
    for line in LINES {
        let (count, bytes) = (line.part)(&mut card);
        *count = 0;
        bytes.fill(0);
    }
    card
}

impl Line {
    /// Gives bytes to the receiver with the smallest frame buffer; gives the number, how many were taken and the frame, and
    /// checks that nothing else is touched.
    fn receive(self, card: &mut Card, bytes: &[u8]) -> (u8, usize, Vec<u8>) {
        let before = card.clone();
        let mut buffer = vec![UNTOUCHED; self.longest];
        let received = (self.receive)(card, bytes, &mut buffer);
        let (frame, rest) = buffer.split_at(received.length);
        assert!(rest.iter().all(|&byte| byte == UNTOUCHED));
        assert_eq!(without_parts(card), without_parts(&before));
        let number = received.number as u8;
        assert!(number < 2 || *card == before && received.taken == 0 && received.length == 0);
        (number, received.taken, frame.to_vec())
    }

    /// The same with bytes in hex figures.
    fn hear(self, card: &mut Card, text: &str) -> (u8, usize, Vec<u8>) {
        self.receive(card, &hex(text))
    }

    /// The bytes collected.
    fn collected(self, card: &mut Card) -> Vec<u8> {
        let (&mut count, bytes) = (self.part)(card);
        bytes[..usize::from(count)].to_vec()
    }

    /// A new card with this part frame.
    fn card_with(self, collected: &[u8]) -> Card {
        let mut card = Card::new();
        let (count, bytes) = (self.part)(&mut card);
        *count = collected.len() as u16;
        bytes[..collected.len()].copy_from_slice(collected);
        card
    }

    /// The whole frame of [`Line::begun`].
    fn whole(self) -> Vec<u8> {
        [hex(self.begun), hex(self.rest)].concat()
    }

    /// Checks that a frame is handed over with its last byte, and not before.
    fn hands_over(self, frame: &[u8]) {
        let (last, front) = frame.split_last().expect("a frame has bytes");
        let mut card = Card::new();
        assert_eq!(self.receive(&mut card, front), (1, front.len(), vec![]), "{frame:02X?}");
        assert_eq!(self.collected(&mut card), front, "{frame:02X?}");
        assert_eq!(
            self.receive(&mut card, &[*last]),
            (0, 1, frame.to_vec()),
            "{frame:02X?}"
        );
        assert_eq!(self.collected(&mut card), [], "{frame:02X?}");
        assert_eq!(self.receive(&mut card, frame), (0, frame.len(), frame.to_vec()));
    }

    /// Checks what is collected after bytes that finish no frame.
    fn leaves(self, bytes: &[u8], collected: &[u8]) {
        let mut card = Card::new();
        assert_eq!(self.receive(&mut card, bytes), (1, bytes.len(), vec![]), "{bytes:02X?}");
        assert_eq!(self.collected(&mut card), collected, "{bytes:02X?}");
    }
}

/// "A call stops after a finished frame and tells how many bytes it took." The rest is left to the caller.
#[test]
fn a_call_stops_behind_a_finished_frame() {
    for line in LINES {
        let frame = line.whole();
        let mut card = Card::new();
        let bytes = [&frame[..], &frame[..3]].concat();
        assert_eq!(line.receive(&mut card, &bytes), (0, frame.len(), frame.clone()));
        assert_eq!(line.collected(&mut card), []);
        assert_eq!(line.receive(&mut card, &bytes[frame.len()..]), (1, 3, vec![]));
        assert_eq!(line.collected(&mut card), frame[..3]);
    }
}

/// "A done call of a new entry gives 0 if it hands over bytes, else 1."
#[test]
fn numbers_0_and_1() {
    for line in LINES {
        let mut card = Card::new();
        assert_eq!(line.receive(&mut card, &[]), (1, 0, vec![]));
        let begun = hex(line.begun);
        assert_eq!(line.receive(&mut card, &begun), (1, begun.len(), vec![]));
        assert_eq!(line.receive(&mut card, &[]), (1, 0, vec![]));
        assert_eq!(line.collected(&mut card), begun);
        let (number, _, frame) = line.hear(&mut card, line.rest);
        assert_eq!((number, frame), (0, line.whole()));
        assert_eq!((line.quiet)(&mut card), Number::Silent);
    }
}

/// "Returns 16 if its frame buffer is below the dialect's longest, after 12 and before everything else."
#[test]
fn number_16() {
    for line in LINES {
        let mut card = line.card_with(&hex(line.begun));
        let before = card.clone();
        let mut buffer = vec![UNTOUCHED; 1024];
        for room in [0, line.longest - 1] {
            for bytes in [&hex(line.rest)[..], &[]] {
                let received = (line.receive)(&mut card, bytes, &mut buffer[..room]);
                assert_eq!(received, Received::refused(Number::ShortFrameBuffer));
            }
        }
        assert_eq!(card, before);
        assert!(buffer.iter().all(|&byte| byte == UNTOUCHED));
        let received = (line.receive)(&mut card, &hex(line.rest), &mut buffer);
        assert_eq!(
            (received.number, received.length),
            (Number::Answered, line.whole().len())
        );
    }
}

/// Number 12 looks at the card and at all four part frames, whatever the bytes and the frame buffer.
#[test]
fn number_12() {
    let mut unfit = Card::new();
    unfit.saved[7] = 1_000_000;
    let outside = LINES.map(|line| {
        let mut card = Card::new();
        *(line.part)(&mut card).0 = u16::MAX;
        card
    });
    for card in outside.into_iter().chain([unfit]) {
        for line in LINES {
            let mut card = card.clone();
            assert_eq!(line.receive(&mut card, &line.whole()), (12, 0, vec![]));
            assert_eq!(line.receive(&mut card, &[]), (12, 0, vec![]));
            assert_eq!(
                (line.receive)(&mut card, &[], &mut []),
                Received::refused(Number::Unfit)
            );
            let before = card.clone();
            assert_eq!((line.quiet)(&mut card), Number::Unfit);
            assert_eq!(card, before);
        }
    }
}

/// Part frames of the other dialects are looked at by 12 alone.
#[test]
fn receivers_do_not_touch_each_other() {
    let mut card = Card::new();
    for line in LINES {
        line.hear(&mut card, line.begun);
    }
    for line in LINES {
        assert_eq!(line.collected(&mut card), hex(line.begun));
    }
    assert_eq!((LOVE.quiet)(&mut card), Number::Silent);
    assert_eq!(LOVE.collected(&mut card), []);
    for line in [DATALINK, LECOM, LUCID] {
        assert_eq!(line.hear(&mut card, line.rest).2, line.whole());
    }
}

/// "Quiet or a restart drops a part frame." The bytes stay behind the count.
#[test]
fn quiet_and_restart_drop_part_frames() {
    for line in LINES {
        let begun = hex(line.begun);
        let mut card = line.card_with(&begun);
        let stored = (line.part)(&mut card).1.to_vec();
        assert_eq!((line.quiet)(&mut card), Number::Silent);
        assert_eq!((line.part)(&mut card), (&mut 0, &mut stored.clone()[..]));
        assert_eq!((line.quiet)(&mut card), Number::Silent);
        let mut card = line.card_with(&begun);
        assert_eq!(restart(&mut card), Number::Silent);
        assert_eq!((line.part)(&mut card), (&mut 0, &mut stored.clone()[..]));
        let (number, taken, _) = line.receive(&mut card, &line.whole());
        assert_eq!((number, taken), (0, line.whole().len()));
    }
}

#[test]
fn restart_drops_all_part_frames_at_once_even_outside_the_rules() {
    let mut card = Card::new();
    for line in LINES {
        *(line.part)(&mut card).0 = u16::MAX;
    }
    let before = card.clone();
    card.love[0] = 871;
    assert_eq!(restart(&mut card), Number::Unfit);
    card.love[0] = 0;
    assert_eq!(card, before);
    assert_eq!(restart(&mut card), Number::Silent);
    for line in LINES {
        assert_eq!(line.receive(&mut card, &line.whole()).0, 0);
    }
}

/// The entries of document 01 neither look at part frames nor change them.
#[test]
fn other_entries_leave_part_frames() {
    let mut card = Card::new();
    for line in LINES {
        *(line.part)(&mut card).0 = u16::MAX;
    }
    let parts = card.ports.clone();
    let mut image = [0; image::IMAGE];
    assert_eq!(image::save(&card, &mut image).number, Number::Answered);
    assert_eq!(image::load(&mut card, &image), Number::Silent);
    assert_eq!(set_probe(&mut card, 0, 90), Number::Silent);
    assert_eq!(governor(&card, 0), Governor::Degrees(5.0));
    let frames = [
        (lecom::lecom as Entry, "04 31 31 36 30 05"),
        (love::love, "02 4C 33 32 30 30 43 35 03"),
        (lucid::lucid, "46 00 40 00"),
        (datalink::datalink, "7E E3 09 00 10 FC"),
    ];
    for (entry, frame) in frames {
        assert_eq!(entry(&mut card, &hex(frame), &mut [0; 38]).number, Number::Answered);
    }
    assert_eq!(card.ports, parts);
    let change = hex("7E A3 01 10 10 05 C9");
    let reply = datalink::datalink(&mut card, &change, &mut [0; 38]);
    assert_eq!(
        (reply.number, card.ports.pending.kind),
        (Number::Answered, PENDING_CHANGE)
    );
    card.ports.pending = parts.pending.clone();
    assert_eq!(card.ports, parts);
}

/// A kept byte is stored; one that drops or finishes the frame is not, and what stands behind the count stays.
#[test]
fn what_is_stored() {
    let mut card = DATALINK.card_with(&[1, 2, 3, 4, 5, 6, 7]);
    *(DATALINK.part)(&mut card).0 = 0;
    let stored = |card: &mut Card| (DATALINK.part)(card).1[..7].to_vec();
    DATALINK.hear(&mut card, "55 7E 20");
    assert_eq!(stored(&mut card), [0x7E, 2, 3, 4, 5, 6, 7]);
    DATALINK.hear(&mut card, "7E E3 21");
    assert_eq!(stored(&mut card), [0x7E, 0xE3, 3, 4, 5, 6, 7]);
    DATALINK.hear(&mut card, "7E E4 02 00 10 FC");
    assert_eq!(stored(&mut card), [0x7E, 0xE4, 2, 0, 0x10, 6, 7]);
    DATALINK.hear(&mut card, "7E 83");
    assert_eq!(stored(&mut card), [0x7E, 0xE4, 2, 0, 0x10, 6, 7]);
}

/// "Demands 2 and 3 now also hold for frames so collected": the frame is the one sent, and the entry answers it.
#[test]
fn collected_frames_are_answered() {
    let mut card = Card::new();
    for byte in hex("7E E3 09 00 10") {
        assert_eq!(DATALINK.receive(&mut card, &[byte]), (1, 1, vec![]));
    }
    let (_, _, frame) = DATALINK.hear(&mut card, "FC");
    let mut answer = [0; 38];
    let reply = datalink::datalink(&mut card, &frame, &mut answer);
    assert_eq!((reply.number, reply.length), (Number::Answered, 15));
    let (_, _, frame) = LECOM.hear(&mut card, "04 31 31 02 30 30 30 39 38 37 33 03 36");
    assert_eq!(lecom::lecom(&mut card, &frame, &mut answer).number, Number::Answered);
    assert_eq!(card.buffer[0], 9873);
}
