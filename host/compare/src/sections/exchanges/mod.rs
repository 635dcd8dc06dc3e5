//! Section `exchanges`: whole exchanges of the line master over a bad line.
//!
//! What is fed to `step` is what the card answered, so these scripts are followed in the reference library.

mod request;

use super::dialect::send_valid;
use crate::card::{ranged_places, Place, IA_MOST, MEMORY, MEMORY_START};
use crate::damage::damaged;
use crate::frames::datalink::{
    acknowledge, interrogate, message, valid_change, valid_interrogate, Datalink, CHANGE, CHANGE_BITS, START,
};
use crate::frames::{lecom::Lecom, love::Love, lucid::Lucid, Dialect};
use crate::image::Image;
use crate::master::ROUNDS;
use crate::rng::Rng;
use crate::streams::divided;
use crate::text::{bytes_of, hex_words, words};
use crate::writer::{Writer, ANSWER_ROOM};
use request::Request;

/// Steps of an exchange that are not refused: one sends the change, the others close a round each.
const STEPS_MOST: usize = ROUNDS + 1;

/// Calls that a frame is collected in, about.
const COLLECTED_CALLS: usize = 4;

/// How bad a line is, each entry in percent.
struct Conditions {
    /// The frame of the first, second, third round does not arrive.
    lost: [usize; ROUNDS],
    /// A frame arrives twice, seldom once more.
    doubled: usize,
    /// No answer reaches the master though there is one.
    unheard: usize,
    /// A step's room is too short, and the step is taken again.
    cramped: usize,
    /// An arrival's room is too short.
    refused: usize,
    /// A frame comes byte by byte and is collected by the receiver.
    collected: usize,
    /// A byte of a frame that is to be collected is lost.
    torn: usize,
    /// Another call comes between.
    busy: usize,
    /// A restart comes between.
    restarted: usize,
    /// The card is at another I.A. for a while.
    moved: usize,
    /// In one round the master gets an answer that the line would not bring.
    is_misled: bool,
}

/// Nothing is lost; frames may arrive more than once.
const LOSSLESS: Conditions = Conditions {
    lost: [0; ROUNDS],
    doubled: 30,
    unheard: 0,
    cramped: 0,
    refused: 0,
    collected: 10,
    torn: 0,
    busy: 0,
    restarted: 0,
    moved: 0,
    is_misled: false,
};
/// Nothing is lost, but there is other traffic.
const BUSY: Conditions = Conditions {
    cramped: 10,
    busy: 60,
    ..LOSSLESS
};
/// Frames and answers are lost, acknowledges above all.
const LOSSY: Conditions = Conditions {
    lost: [15, 40, 15],
    unheard: 10,
    ..LOSSLESS
};
/// Everything happens that the premise of the clauses allows.
const ROUGH: Conditions = Conditions {
    lost: [10; ROUNDS],
    unheard: 5,
    cramped: 15,
    refused: 15,
    collected: 25,
    torn: 10,
    busy: 30,
    restarted: 10,
    moved: 8,
    ..LOSSLESS
};
/// The premise is broken: a wrong answer, and seldom someone else's change.
const MISLED: Conditions = Conditions {
    is_misled: true,
    ..LOSSLESS
};
/// The lines, in the order of their turns.
const LINES: [Conditions; 6] = [LOSSLESS, LOSSY, BUSY, MISLED, ROUGH, MISLED];

/// Writes the next exchange, seldom one whose request is refused.
pub fn scene(out: &mut Writer) {
    let conditions = &LINES[out.turn % LINES.len()];
    if out.rng.chance(20) {
        out.move_card();
    }
    if out.rng.chance(10) {
        refused_request(out);
        return;
    }
    let request = Request::draw(&mut out.rng, &out.addresses);
    let unfit = set_scene(out, &request);
    out.call(&request.line());
    Exchange::new(out, conditions).play();
    if let Some(place) = unfit {
        let value = place.fit_value(&mut out.rng);
        out.set(place.table, place.place, value);
    }
    out.set_addresses();
    out.peek(true);
}

/// Brings the card to the exchange's start: bytes old or as asked already, probes, a stale pending change, or an
/// entry that makes it unfit, which is given back.
fn set_scene(out: &mut Writer, request: &Request) -> Option<Place> {
    if out.rng.chance(15) {
        out.call("restart");
    }
    let kept = out.rng.pick(&[0, 0, 50, 100]);
    for (place, wanted) in request.places() {
        let value = if out.rng.chance(kept) { wanted } else { out.rng.byte() };
        out.set(MEMORY, place, i64::from(value));
    }
    if out.rng.chance(30) {
        out.set_probes();
    }
    if out.rng.chance(30) {
        let stale = valid_change(&mut out.rng, out.addresses.ia);
        out.frame(Datalink::CALL, ANSWER_ROOM, &stale);
    }
    let unfit = out.rng.chance(4).then(|| {
        let places = ranged_places();
        let place = out.rng.pick(&places);
        let value = place.any_value(&mut out.rng);
        out.set(place.table, place.place, value);
        place
    });
    out.peek(true);
    unfit
}

/// A request that 7 refuses, and steps that move nothing, whatever their room.
fn refused_request(out: &mut Writer) {
    let line = request::refused(&mut out.rng);
    out.call(&line);
    out.call("step 38");
    out.call("step 37");
    out.call("step 38 7E 23 00 00 10 33");
}

/// An exchange as it is played.
struct Exchange<'w, 'a> {
    out: &'w mut Writer<'a>,
    line: &'w Conditions,
    /// The frame last sent.
    frame: Vec<u8>,
    /// Answers of this round, and of the rounds before.
    answers: Vec<Vec<u8>>,
    stale: Vec<Vec<u8>>,
    /// Steps that were not refused.
    steps: usize,
    /// The step that gets a wrong answer, if any.
    misled_step: Option<usize>,
    is_ended: bool,
    /// Whether the card answers to another I.A. at present.
    is_away: bool,
}

impl<'w, 'a> Exchange<'w, 'a> {
    /// An exchange whose request was just made.
    fn new(out: &'w mut Writer<'a>, line: &'w Conditions) -> Self {
        let misled_step = line.is_misled.then(|| out.rng.pick(&[0, 1, 2, 3, 3, 3]));
        Self {
            out,
            line,
            frame: Vec::new(),
            answers: Vec::new(),
            stale: Vec::new(),
            steps: 0,
            misled_step,
            is_ended: false,
            is_away: false,
        }
    }

    /// Steps and arrivals until the master has ended, and a little beyond.
    fn play(&mut self) {
        for _ in 0..STEPS_MOST {
            self.between();
            self.step();
            if self.is_ended {
                break;
            }
            for _ in 0..self.arrivals() {
                self.between();
                self.arrive();
            }
        }
        if self.is_ended && self.out.rng.chance(40) {
            self.step();
            self.between();
            self.arrive();
        }
    }

    /// True in `percent` of a hundred cases.
    fn chance(&mut self, percent: usize) -> bool {
        self.out.rng.chance(percent)
    }

    /// How often the frame arrives in this round.
    fn arrivals(&mut self) -> usize {
        if self.chance(self.line.lost[self.steps - 1]) {
            0
        } else if self.chance(self.line.doubled) {
            self.out.rng.pick(&[2, 2, 2, 3])
        } else {
            1
        }
    }

    /// The frame last sent arrives, whole or byte by byte, seldom with too little room for its answer.
    fn arrive(&mut self) {
        let room = if self.chance(self.line.refused) {
            self.out.rng.below(ANSWER_ROOM)
        } else {
            ANSWER_ROOM
        };
        let frames = if self.out.has_receivers() && self.chance(self.line.collected) {
            self.collect()
        } else {
            vec![self.frame.clone()]
        };
        for frame in frames {
            let answer = self.send(room, &frame);
            if frame == self.frame {
                self.answers.extend(answer);
            }
        }
    }

    /// The frame last sent comes in pieces behind other bytes, seldom without one of its own or with a restart between;
    /// gives what the receiver makes of it.
    fn collect(&mut self) -> Vec<Vec<u8>> {
        let mut bytes = self.out.rng.bytes(2);
        bytes.retain(|&byte| byte != START);
        bytes.extend_from_slice(&self.frame);
        if self.chance(self.line.torn) {
            let place = self.out.rng.below(bytes.len());
            bytes.remove(place);
        }
        let mut frames = Vec::new();
        for call in divided(&mut self.out.rng, &bytes, COLLECTED_CALLS) {
            if self.chance(self.line.restarted) {
                self.out.call("restart");
            }
            let line = format!("receive {} {}{}", Datalink::CALL, Datalink::LONGEST, hex_words(&call));
            let answer = self.out.call(&line).unwrap_or_default();
            if let [b"0", _, frame @ ..] = &words(answer.as_bytes()).collect::<Vec<_>>()[..] {
                frames.extend(bytes_of(frame.iter().copied()));
            }
        }
        frames
    }

    /// Sends a Datalink frame; gives the bytes answered with number 0.
    fn send(&mut self, room: usize, frame: &[u8]) -> Option<Vec<u8>> {
        let reply = self.out.frame(Datalink::CALL, room, frame)?;
        let bytes = reply.strip_prefix("0 ")?;
        bytes_of(words(bytes.as_bytes()))
    }

    /// The master's step, seldom after one that is refused for its room.
    fn step(&mut self) {
        let heard = self.heard();
        if self.chance(self.line.cramped) {
            let room = self.out.rng.below(ANSWER_ROOM);
            self.out.call(&format!("step {room}{}", hex_words(&heard)));
        }
        let line = format!("step {ANSWER_ROOM}{}", hex_words(&heard));
        let reply = self.out.call(&line).unwrap_or_default();
        let mut reply = words(reply.as_bytes()).skip(1);
        self.is_ended = reply.next() != Some(b"open");
        if !self.is_ended {
            self.frame = bytes_of(reply).unwrap_or_default();
        }
        self.stale.append(&mut self.answers);
        self.steps += 1;
    }

    /// What reaches the master: none or one of the round's answers, or on a misleading line anything.
    fn heard(&mut self) -> Vec<u8> {
        if self.misled_step == Some(self.steps) {
            return self.misleading();
        }
        if self.answers.is_empty() || self.chance(self.line.unheard) {
            return Vec::new();
        }
        let choice = self.out.rng.below(self.answers.len());
        self.answers[choice].clone()
    }

    /// A damaged answer, one of an earlier round, the frame itself, or noise.
    fn misleading(&mut self) -> Vec<u8> {
        let mut answer = self.answers.first().cloned().unwrap_or_default();
        let rng = &mut self.out.rng;
        let place = rng.below(answer.len().max(1));
        match rng.below(10) {
            0..=2 => damaged(rng, &answer, place),
            3 | 4 => {
                answer = damaged(rng, &answer, place);
                Datalink::seal(&mut answer);
                answer
            }
            5 | 6 if !answer.is_empty() => {
                answer[place] ^= 1 << rng.below(8);
                Datalink::seal(&mut answer);
                answer
            }
            7 | 8 if !self.stale.is_empty() => {
                let choice = rng.below(self.stale.len());
                self.stale[choice].clone()
            }
            8 => self.frame.clone(),
            _ => {
                let length = rng.below(60);
                rng.bytes(length)
            }
        }
    }

    /// What happens between two events of the exchange.
    fn between(&mut self) {
        if self.chance(self.line.restarted) {
            self.out.call("restart");
        }
        if self.is_away || self.chance(self.line.moved) {
            self.move_card();
        }
        if self.chance(self.line.busy) {
            self.other_call();
        }
        if self.line.is_misled && self.chance(5) {
            let ia = self.out.addresses.ia;
            let other = Datalink::valid(&mut self.out.rng, &self.out.addresses);
            let frame = self.out.rng.pick(&[&other[..], &acknowledge(ia)]).to_vec();
            self.send(ANSWER_ROOM, &frame);
        }
    }

    /// An image moves the card to another I.A., or back.
    fn move_card(&mut self) {
        let mut addresses = self.out.addresses;
        if !self.is_away {
            addresses.ia = (addresses.ia + 1) % (IA_MOST as u8 + 1);
        }
        let image = Image::fit(&mut self.out.rng, &addresses);
        self.out.load(&image.bytes());
        self.is_away = !self.is_away;
    }

    /// A call that the exchange must not notice.
    fn other_call(&mut self) {
        let out = &mut *self.out;
        match out.rng.below(10) {
            0 => send_valid::<Lecom>(out),
            1 => send_valid::<Love>(out),
            2 => send_valid::<Lucid>(out),
            3 => out.set_code(),
            4 => drop(out.call("save 293")),
            5 => {
                let image = Image::fit(&mut out.rng, &out.addresses);
                out.load(&image.bytes());
            }
            6 | 7 => {
                let frame = valid_interrogate(&mut out.rng, out.addresses.ia);
                self.send(ANSWER_ROOM, &frame);
            }
            _ => {
                let (room, frame) = refused_frame(&mut out.rng, out.addresses.ia);
                self.send(room, &frame);
            }
        }
    }
}

/// A Datalink frame of someone else that every card at this I.A. refuses, with the room for its answer.
fn refused_frame(rng: &mut Rng, ia: u8) -> (usize, Vec<u8>) {
    let foreign = (ia + 1 + rng.below(30) as u8) % 32;
    let frame = match rng.below(8) {
        0 => valid_change(rng, foreign),
        1 => acknowledge(foreign),
        2 => message(CHANGE, ia, 2, 0x100F, &[1, 2]),
        3 => message(CHANGE, ia, 2, 0x1FFF, &[1, 2]),
        4 => message(CHANGE_BITS, ia, 3, 0x1010, &[1, 2, 3]),
        5 => {
            let mut frame = valid_change(rng, ia);
            let place = 1 + rng.below(frame.len() - 1);
            frame[place] ^= if place == 1 { 0x01 } else { 0x55 };
            frame
        }
        6 => interrogate(ia, 33, MEMORY_START),
        _ => {
            let change = valid_change(rng, ia);
            let frame = rng.pick(&[&change[..], &acknowledge(ia)]).to_vec();
            return (rng.below(ANSWER_ROOM), frame);
        }
    };
    (ANSWER_ROOM, frame)
}
