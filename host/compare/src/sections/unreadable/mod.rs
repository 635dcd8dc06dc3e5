//! Section `unreadable`: lines that cannot be read, or only just.

mod lists;

use crate::asked::Mastered;
use crate::card::{ranged_places, PART_TABLES, SMALL_TABLES};
use crate::frames::{datalink::Datalink, lecom::Lecom, love::Love, lucid::Lucid, Dialect};
use crate::masters::Master;
use crate::receivers::Receiver;
use crate::rng::Rng;
use crate::text::{hex_words, LINE_MOST};
use crate::writer::Writer;
use lists::{LIMIT_LINES, ODD_BYTES, ODD_LINES, ODD_NUMBERS, REQUEST_LINES};

/// Scenes of this section.
const SCENES: usize = 8;
/// Lines of one scene.
const LINES: usize = 8;
/// Tables that readable lines poke: all small ones but the pending change, of which entries may be unknown.
const POKED_TABLES: &[&str] = SMALL_TABLES.split_at(SMALL_TABLES.len() - 1).0;
/// Places of a table that readable lines poke, from the first on.
const POKED_PLACES: usize = 3;
/// Lengths of long lines: one below the longest, the longest, one above, and far above.
const LONG_LENGTHS: [usize; 4] = [LINE_MOST, LINE_MOST + 1, LINE_MOST - 1, 70_000];
/// Numbers of one scene that are put into requests to the masters.
const REQUEST_NUMBERS: usize = 2;
/// Kinds of long lines.
const LONG_KINDS: usize = 10;

/// Writes the next scene.
pub fn scene(out: &mut Writer) {
    let turn = out.turn / SCENES;
    if out.calls() == 0 {
        no_request(out);
    }
    match out.turn % SCENES {
        0 => odd_lines(out, turn),
        1 | 2 => spoiled_lines(out),
        3 => numbers(out, turn),
        4 => noise_lines(out),
        5 => limit_lines(out, turn),
        6 => request_numbers(out, turn),
        _ => long_lines(out, turn),
    }
    if out.rng.chance(20) {
        repair(out);
        out.peek(true);
    }
}

/// The script's last line, which may lose its line feed.
pub fn close(out: &mut Writer) {
    let line = match out.rng.below(5) {
        0 => out.rng.pick(&ODD_LINES).to_vec(),
        1 => readable(out).join(" ").into_bytes(),
        2 => spoiled(out),
        3 => noise(out),
        _ => {
            let kind = out.rng.below(LONG_KINDS);
            let length = out.rng.pick(&LONG_LENGTHS);
            long_line(kind, length)
        }
    };
    out.bare(&line);
}

/// Makes the entries fit again that lines of this section poke.
fn repair(out: &mut Writer) {
    out.set_addresses();
    out.set_pending(0, 0, 0);
    for part in PART_TABLES {
        out.set(part, 0, 0);
    }
    for place in ranged_places() {
        if place.table != "address" && place.place < POKED_PLACES {
            let value = place.fit_value(&mut out.rng);
            out.set(place.table, place.place, value);
        }
    }
}

/// Steps and replies before the first request, readable or not; each dialect has its own.
fn no_request(out: &mut Writer) {
    for line in ["step 38", "step 0 7E", "step 1025", "step 38 7", "step"] {
        out.call(line);
    }
    for line in [
        "reply lecom",
        "reply love 06",
        "reply lucid 00 00",
        "reply lecom 1",
        "reply x",
        "reply",
    ] {
        out.call(line);
    }
    let mut requests = ["lecom 6 11 read 5", "love 9 50 status", "lucid 3 getio 0 16"];
    out.rng.shuffle(&mut requests);
    for request in requests {
        out.call(&format!("ask {request}"));
        for master in Master::ALL {
            out.call(&format!("reply {} 15", master.word()));
        }
    }
}

/// Lines of the list, each in its turn.
fn odd_lines(out: &mut Writer, turn: usize) {
    for line in 0..LINES {
        out.raw(ODD_LINES[(LINES * turn + line) % ODD_LINES.len()]);
    }
}

/// Lines at and past the limits, each in its turn.
fn limit_lines(out: &mut Writer, turn: usize) {
    for line in 0..LINES {
        out.call(LIMIT_LINES[(LINES * turn + line) % LIMIT_LINES.len()]);
    }
    repair(out);
}

/// Readable lines spoiled, each on the card as the one before left it.
fn spoiled_lines(out: &mut Writer) {
    for _ in 0..LINES {
        let line = spoiled(out);
        out.raw(&line);
    }
}

/// A readable line with one word left out, put in or changed, or with another separator.
fn spoiled(out: &mut Writer) -> Vec<u8> {
    let mut words = readable(out);
    let rng = &mut out.rng;
    let place = rng.below(words.len());
    match rng.below(8) {
        0 => drop(words.remove(place)),
        1 => words.insert(place, rng.pick(&ODD_NUMBERS).to_owned()),
        2 => words.push(rng.pick(&["0", "00", "x", "/", "#"]).to_owned()),
        3 => words[place] = rng.pick(&ODD_NUMBERS).to_owned(),
        4 => words[place] = rng.pick(&ODD_BYTES).to_owned(),
        5 => words[place] = words[place].to_ascii_uppercase(),
        6 => words[place].push(rng.pick(&['\t', '\r', '0', '-', '\0', '\u{E9}'])),
        _ => words.truncate(place),
    }
    words.join(rng.pick(&[" ", " ", " ", "  ", "\t"])).into_bytes()
}

/// Each odd number in turn, in the place of several numbers of readable lines.
fn numbers(out: &mut Writer, turn: usize) {
    let number = ODD_NUMBERS[turn % ODD_NUMBERS.len()];
    let table = out.rng.pick(POKED_TABLES);
    let place = out.rng.below(POKED_PLACES);
    let mut lines = [
        format!("probe {number} 1"),
        format!("probe 1 {number}"),
        format!("governor {number}"),
        format!("datalink {number} 7E 83"),
        format!("lecom {number} 04 31 31 30 30 05"),
        format!("love {number} 02"),
        format!("lucid {number} 46 00 10 00"),
        format!("save {number}"),
        format!("step {number}"),
        format!("request change {number} 4112 01 02"),
        format!("request change 3 {number} 01 02"),
        format!("request bits {number} 4112 01 / 02"),
        format!("request bits 3 {number} 01 / 02"),
        format!("poke memory {number} 1"),
        format!("poke memory {place} {number}"),
        format!("poke {table} {number} 1"),
        format!("receive lecom {number} 04 31"),
        format!("poke part love {number} 1"),
        format!("poke part love {place} {number}"),
    ];
    out.rng.shuffle(&mut lines);
    for line in &lines[..LINES] {
        out.raw(line.as_bytes());
    }
    let table = out.rng.pick(POKED_TABLES);
    out.raw(format!("poke {table} {place} {number}").as_bytes());
    out.set_pending(0, 0, 0);
    out.raw(format!("poke pending {number} 1").as_bytes());
    out.raw(format!("poke pending {place} {number}").as_bytes());
    repair(out);
}

/// Odd numbers in turn, in the place of every number of requests to the masters. A reply after each shows which request is
/// kept, and a look in the end that no table changed.
fn request_numbers(out: &mut Writer, turn: usize) {
    for place in 0..REQUEST_NUMBERS {
        let number = ODD_NUMBERS[(REQUEST_NUMBERS * turn + place) % ODD_NUMBERS.len()];
        for (line, telling) in REQUEST_LINES {
            out.bare(line.replace('N', number).as_bytes());
            out.bare(telling.as_bytes());
        }
    }
    let line = request(&mut out.rng);
    out.call(&line);
}

/// Random bytes, each line on the card as the one before left it.
fn noise_lines(out: &mut Writer) {
    for _ in 0..LINES {
        let line = noise(out);
        out.raw(&line);
    }
}

/// Random bytes without a line feed, alone or behind a call's name.
fn noise(out: &mut Writer) -> Vec<u8> {
    let mut line = if out.rng.chance(50) {
        readable(out)[0].clone().into_bytes()
    } else {
        Vec::new()
    };
    line.push(b' ');
    let length = out.rng.below(40);
    line.extend(out.rng.bytes(length));
    line.retain(|&byte| byte != b'\n');
    line
}

/// A long line of each kind and length, and a look at what a `probe` in it might have done.
fn long_lines(out: &mut Writer, turn: usize) {
    let length = LONG_LENGTHS[turn % LONG_LENGTHS.len()];
    let line = long_line(turn / LONG_LENGTHS.len() % LONG_KINDS, length);
    out.raw(&line);
    out.raw(b"governor 1");
}

/// A call, a comment, spaces, bytes or an unknown word of exactly this length.
fn long_line(kind: usize, length: usize) -> Vec<u8> {
    let (start, filler): (&[u8], &[u8]) = match kind {
        0 => (b"probe 1 90", b" "),
        1 => (b"#", b" "),
        2 => (b"", b" "),
        3 => (b"load", b" 00"),
        4 => (b"datalink 38", b" 7E"),
        5 => (b"request change 3 4112", b" 5A"),
        6 => (b"receive lecom 25", b" 31"),
        7 => (b"ask lucid 1024 setiogroup 15 16", b" 7"),
        8 => (b"reply lecom", b" 15"),
        _ => (b"x", b"x"),
    };
    let mut line = start.to_vec();
    while line.len() + filler.len() <= length {
        line.extend_from_slice(filler);
    }
    line.resize(length, b' ');
    line
}

/// The words of a readable line of any call.
fn readable(out: &mut Writer) -> Vec<String> {
    let rng = &mut out.rng;
    let to = out.addresses;
    let byte = rng.byte();
    let shown = rng.pick(&SMALL_TABLES);
    let poked = rng.pick(POKED_TABLES);
    let receiver = rng.pick(&Receiver::ALL).word();
    let line = match rng.below(20) {
        0 => format!("probe {} {byte}", byte % 5),
        1 => "restart".to_owned(),
        2 => format!("governor {}", byte % 5),
        3 => format!("datalink 38{}", hex_words(&Datalink::valid(rng, &to))),
        4 => format!("lecom 38{}", hex_words(&Lecom::valid(rng, &to))),
        5 => format!("love 38{}", hex_words(&Love::valid(rng, &to))),
        6 => format!("lucid 38{}", hex_words(&Lucid::valid(rng, &to))),
        7 => "save 293".to_owned(),
        8 => format!("load{}", hex_words(&rng.bytes(4))),
        9 => format!("request change 3 4112{}", hex_words(&rng.bytes(3))),
        10 => {
            let masks = hex_words(&rng.bytes(2));
            let states = hex_words(&rng.bytes(2));
            format!("request bits 3 4112{masks} /{states}")
        }
        11 => format!("step 38{}", hex_words(&rng.bytes(usize::from(byte % 4)))),
        12 => format!("poke {poked} {} {byte}", byte % 3),
        13 => format!("receive {receiver} 259{}", hex_words(&rng.bytes(usize::from(byte % 4)))),
        14 => format!("quiet {receiver}"),
        15 => format!("poke part {receiver} {} {byte}", byte % 3),
        16 => format!("peek part {receiver}"),
        17 => request(rng),
        18 => format!(
            "reply {}{}",
            rng.pick(&Master::ALL).word(),
            hex_words(&rng.bytes(usize::from(byte % 3)))
        ),
        _ => format!("peek {shown}"),
    };
    line.split(' ').map(str::to_owned).collect()
}

/// A request to any master, at or past a limit or not.
fn request(rng: &mut Rng) -> String {
    let master = rng.pick(&Master::ALL);
    let requests = match master {
        Master::Lecom => Lecom::limits(),
        Master::Love => Love::limits(),
        Master::Lucid => Lucid::limits(),
    };
    let request = &requests[rng.below(requests.len())];
    format!("ask {} {} {request}", master.word(), rng.pick(&[0, 9, 1024]))
}
