//! Section `tables`: every entry's answer to fit and unfit tables, channels, rooms, codes and restarts.

use super::dialect::send_valid;
use super::receivers::{lend_any, quiet_any};
use crate::card::{
    self, ranged_places, register_places, short_places, Place, MEMORY, MEMORY_END, MEMORY_PLACES, MEMORY_START,
    REGISTERS, WRITABLE_START,
};
use crate::frames::datalink::{acknowledge, writable_address, Datalink, NUM_MOST, TELLING_ADDRESSES, TELLING_NUMS};
use crate::frames::{lecom::Lecom, love::Love, lucid::Lucid};
use crate::frames::{love, Dialect};
use crate::image::{Image, IMAGE};
use crate::rng::Rng;
use crate::writer::{Writer, ANSWER_ROOM, TELLING_ROOMS};

/// Scenes of this section.
const SCENES: usize = 8;
/// Probe codes of one scene.
const CODES: usize = 8;
/// The pending kind of a Change Bits; that of a Change is 1.
const CHANGE_BITS_KIND: u8 = 2;
/// Pending kinds that are no change: none, and two that are no kind.
const NO_CHANGES: [u8; 3] = [0, 3, 255];
/// Faults of a pending change, with none at all.
const PENDING_FAULTS: usize = 7;

/// Writes the next scene.
pub fn scene(out: &mut Writer) {
    let turn = out.turn / SCENES;
    match out.turn % SCENES {
        0 => one_entry(out, turn),
        1 => pending(out, turn),
        2 => channels(out, turn),
        3 => rooms(out, turn),
        4 => codes(out, turn),
        5 => restart(out),
        6 => memory(out),
        _ => limits(out, turn),
    }
}

/// A call of each entry of the card.
const ENTRY_CALLS: [fn(&mut Writer); 11] = [
    |out| out.set_code(),
    |out| drop(out.call("restart")),
    reading,
    send_valid::<Datalink>,
    send_valid::<Lecom>,
    send_valid::<Love>,
    send_valid::<Lucid>,
    lend_any,
    quiet_any,
    |out| drop(out.call(&format!("save {IMAGE}"))),
    load_same,
];

/// Calls every entry once, in random order.
fn every_entry(out: &mut Writer) {
    let mut calls = ENTRY_CALLS;
    out.rng.shuffle(&mut calls);
    for call in calls {
        call(out);
    }
}

/// Gives the governor a reading, seldom of a channel that there is not.
fn reading(out: &mut Writer) {
    let channel = out.rng.below(card::CHANNELS + 1);
    out.call(&format!("governor {channel}"));
}

/// Reads an image that leaves the card its addresses.
fn load_same(out: &mut Writer) {
    let image = Image::fit(&mut out.rng, &out.addresses);
    out.load(&image.bytes());
}

/// One entry of a table at, inside or past its range; all calls; the entry fit again.
fn one_entry(out: &mut Writer, turn: usize) {
    let places = ranged_places();
    let place = places[turn % places.len()];
    let value = place.any_value(&mut out.rng);
    out.poke(place, value);
    every_entry(out);
    if place.table == "address" {
        out.set_addresses();
        out.peek(false);
    } else {
        let value = place.fit_value(&mut out.rng);
        out.poke(place, value);
    }
    reading(out);
}

/// A short table's entry and a register on both sides of each limit, with one call each.
fn limits(out: &mut Writer, turn: usize) {
    let short = short_places();
    let registers = register_places();
    for place in [short[turn % short.len()], registers[turn % registers.len()]] {
        for value in place.limits() {
            out.poke(place, value);
            let call = out.rng.pick(&ENTRY_CALLS);
            call(out);
        }
        let value = place.fit_value(&mut out.rng);
        out.set(place.table, place.place, value);
    }
    out.set_addresses();
}

/// A pending change that is fit, or unfit by its kind, address or NUM; all calls; nothing pending again.
fn pending(out: &mut Writer, turn: usize) {
    let case = turn % (2 * PENDING_FAULTS + NO_CHANGES.len());
    let (kind, fault) = match NO_CHANGES.get(case) {
        Some(&kind) => (kind, 0),
        None => (1 + (case % 2) as u8, (case - NO_CHANGES.len()) / 2),
    };
    let (address, num) = change_with(&mut out.rng, kind, fault);
    out.set_pending(kind, address, num);
    out.peek(false);
    if out.rng.chance(50) {
        let ia = out.addresses.ia;
        out.frame(Datalink::CALL, ANSWER_ROOM, &acknowledge(ia));
    }
    every_entry(out);
    out.set_pending(0, 0, 0);
    out.peek(false);
    reading(out);
}

/// The address and NUM of a change with the fault of this number below [`PENDING_FAULTS`], of which 0 is none.
fn change_with(rng: &mut Rng, kind: u8, fault: usize) -> (u16, u8) {
    let num = 2 + 2 * rng.below(usize::from(NUM_MOST) / 2) as u8;
    let named = if kind == CHANGE_BITS_KIND { num / 2 } else { num };
    let address = writable_address(rng, named);
    match fault {
        0 => (address, num),
        1 => (address, num - 1),
        2 => (WRITABLE_START, rng.pick(&[NUM_MOST + 1, NUM_MOST + 2, 255])),
        3 => (rng.pick(&[MEMORY_START, WRITABLE_START - 1]), num),
        4 => (MEMORY_END - u16::from(named) + 1, num),
        5 => (rng.pick(&[0, MEMORY_START - 1]), rng.pick(&[0, num])),
        _ => (rng.pick(&TELLING_ADDRESSES), rng.pick(&TELLING_NUMS)),
    }
}

/// Every channel number from 0 to 255.
fn channels(out: &mut Writer, turn: usize) {
    let swept = turn % 256;
    for channel in [swept, swept % card::CHANNELS] {
        let code = card::probe_code(&mut out.rng);
        out.call(&format!("probe {channel} {code}"));
        out.call(&format!("governor {channel}"));
    }
}

/// Every room around the limits, on a fit and on an unfit card.
fn rooms(out: &mut Writer, turn: usize) {
    let place = Place {
        table: "demand",
        place: turn % card::CHANNELS,
    };
    let is_unfit = out.rng.chance(30);
    if is_unfit {
        let (_, highest) = card::DEMAND_RANGE;
        out.poke(place, highest + 1);
    }
    let mut rooms = TELLING_ROOMS.to_vec();
    rooms.push(turn % 1025);
    for room in rooms {
        out.call(&format!("save {room}"));
        let frame = love::request(out.addresses.love, b"00");
        out.frame(Love::CALL, room, &frame);
    }
    if is_unfit {
        let value = place.fit_value(&mut out.rng);
        out.poke(place, value);
    }
}

/// The governor's reading of each code, set by the entry or by a poke.
fn codes(out: &mut Writer, turn: usize) {
    let channel = turn % card::CHANNELS;
    for code in 0..CODES {
        let code = (CODES * turn + code) % 256;
        if out.rng.chance(50) {
            out.call(&format!("probe {channel} {code}"));
        } else {
            out.set("probe", channel, code as i64);
        }
        out.call(&format!("governor {channel}"));
    }
}

/// A restart after changes of every table that it looks at.
fn restart(out: &mut Writer) {
    let touched = ["buffer", "operational", "saved"].map(|table| Place {
        table,
        place: out.rng.below(REGISTERS),
    });
    let counted = ["demand", "love"].map(|table| Place {
        table,
        place: out.rng.below(card::CHANNELS),
    });
    let parameters = ["parameter", "kept"].map(|table| Place {
        table,
        place: out.rng.below(card::PARAMETERS),
    });
    for place in touched.into_iter().chain(counted).chain(parameters) {
        let value = place.fit_value(&mut out.rng);
        out.set(place.table, place.place, value);
    }
    out.set_probes();
    send_valid::<Datalink>(out);
    out.call("restart");
    every_entry(out);
    out.call("restart");
}

/// Bytes of the Datalink memory at its ends, at the probes and anywhere.
fn memory(out: &mut Writer) {
    let anywhere = out.rng.below(MEMORY_PLACES);
    for place in [0, 3, 4, 15, 16, MEMORY_PLACES - 1, anywhere] {
        let byte = out.rng.byte();
        let value = out.rng.pick(&[0, 1, 127, 128, 254, 255, byte]);
        let place = Place { table: MEMORY, place };
        out.poke(place, i64::from(value));
    }
    reading(out);
    send_valid::<Datalink>(out);
    send_valid::<Lucid>(out);
}
