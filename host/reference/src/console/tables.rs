//! The tables of a console line (docs/CONSOLE.md, "Tables"): `poke` and `peek`.

use super::receivers::{receiver, Receiver};
use super::words::{signed, split_word, unsigned, Unreadable};
use super::write_entries;
use crate::card::{by_channel, Card, Parameters, CHANNELS, CHANNEL_PARAMETERS, PENDING_NONE};

/// What names a table.
pub enum Table<'a> {
    /// `part` and a dialect.
    Part(&'static Receiver),
    /// One word, known or not.
    Named(&'a [u8]),
}

/// The first table, and the words after it.
pub fn split_table(words: &[u8]) -> Result<(Table<'_>, &[u8]), Unreadable> {
    let (name, words) = split_word(words);
    if name != b"part" {
        return Ok((Table::Named(name), words));
    }
    let (dialect, words) = split_word(words);
    Ok((Table::Part(receiver(dialect)?), words))
}

/// Stores a value, given as a word, at a place of a table.
pub fn poke(card: &mut Card, table: Table, place: usize, value: &[u8]) -> Result<(), Unreadable> {
    let table = match table {
        Table::Part(receiver) => return poke_part(receiver, card, place, value),
        Table::Named(name) => name,
    };
    match table {
        b"address" => *address(card, place)? = unsigned(value)?,
        b"probe" => *entry(&mut card.memory[..CHANNELS], place)? = unsigned(value)?,
        b"memory" => *entry(&mut card.memory, place)? = unsigned(value)?,
        b"buffer" => *entry(&mut card.buffer, place)? = signed(value)?,
        b"operational" => *entry(&mut card.operational, place)? = signed(value)?,
        b"saved" => *entry(&mut card.saved, place)? = signed(value)?,
        b"love" => *entry(&mut card.love, place)? = signed(value)?,
        b"demand" => *entry(&mut card.demand, place)? = unsigned(value)?,
        b"parameter" => *parameter(&mut card.parameter, place)? = unsigned(value)?,
        b"kept" => *parameter(&mut card.kept, place)? = unsigned(value)?,
        b"pending" => poke_pending(card, place, value)?,
        _ => return Err(Unreadable),
    }
    Ok(())
}

/// Writes a table's entries.
pub fn peek(card: &Card, table: Table, out: &mut Vec<u8>) -> Result<(), Unreadable> {
    let table = match table {
        Table::Part(receiver) => {
            peek_part(receiver, card, out);
            return Ok(());
        }
        Table::Named(name) => name,
    };
    match table {
        b"address" => {
            let addresses = &card.addresses;
            write_entries(out, &[addresses.datalink, addresses.lecom, addresses.love]);
        }
        b"probe" => write_entries(out, &card.memory[..CHANNELS]),
        b"memory" => write_entries(out, &card.memory),
        b"buffer" => write_entries(out, &card.buffer),
        b"operational" => write_entries(out, &card.operational),
        b"saved" => write_entries(out, &card.saved),
        b"love" => write_entries(out, &card.love),
        b"demand" => write_entries(out, &card.demand),
        b"parameter" => write_entries(out, &by_channel(&card.parameter)),
        b"kept" => write_entries(out, &by_channel(&card.kept)),
        b"pending" => peek_pending(card, out),
        _ => return Err(Unreadable),
    }
    Ok(())
}

/// The entry at a place of a table.
fn entry<T>(table: &mut [T], place: usize) -> Result<&mut T, Unreadable> {
    table.get_mut(place).ok_or(Unreadable)
}

/// The entry at a place of the table `address`.
fn address(card: &mut Card, place: usize) -> Result<&mut u32, Unreadable> {
    match place {
        0 => Ok(&mut card.addresses.datalink),
        1 => Ok(&mut card.addresses.lecom),
        2 => Ok(&mut card.addresses.love),
        _ => Err(Unreadable),
    }
}

/// The entry at a place of the table `parameter` or `kept`, which go channel by channel.
fn parameter(table: &mut Parameters, place: usize) -> Result<&mut u32, Unreadable> {
    let (channel, parameter) = (place / CHANNEL_PARAMETERS, place % CHANNEL_PARAMETERS);
    entry(&mut table[parameter], channel)
}

/// Stores an entry of the table `pending`.
fn poke_pending(card: &mut Card, place: usize, value: &[u8]) -> Result<(), Unreadable> {
    let pending = &mut card.ports.pending;
    match place {
        0 => pending.kind = unsigned(value)?,
        1 => pending.address = unsigned(value)?,
        2 => pending.num = unsigned(value)?,
        _ => *entry(&mut pending.data, place - 3)? = unsigned(value)?,
    }
    Ok(())
}

/// Shows the table `pending`: the data only as far as NUM, and nothing but the kind if there is none.
fn peek_pending(card: &Card, out: &mut Vec<u8>) {
    let pending = &card.ports.pending;
    write_entries(out, &[pending.kind]);
    if pending.kind != PENDING_NONE {
        out.push(b' ');
        write_entries(out, &[pending.address, u16::from(pending.num)]);
        let count = usize::from(pending.num).min(pending.data.len());
        for &byte in &pending.data[..count] {
            out.push(b' ');
            write_entries(out, &[byte]);
        }
    }
}

/// Stores an entry of a table `part`: the count, or a byte behind it.
fn poke_part(receiver: &Receiver, card: &mut Card, place: usize, value: &[u8]) -> Result<(), Unreadable> {
    let (count, bytes) = (receiver.part_mut)(&mut card.ports);
    match place {
        0 => *count = unsigned(value)?,
        _ => *entry(bytes, place - 1)? = unsigned(value)?,
    }
    Ok(())
}

/// Shows a table `part`: the bytes collected, of a count above the longest frame the longest.
fn peek_part(receiver: &Receiver, card: &Card, out: &mut Vec<u8>) {
    let (count, bytes) = (receiver.part)(&card.ports);
    write_entries(out, &bytes[..bytes.len().min(count.into())]);
}
