//! The receivers of a console line (docs/CONSOLE.md), by the word that names their dialect.

use super::words::Unreadable;
use crate::card::{Card, Ports};
use crate::numbers::Number;
use crate::receivers::{
    quiet_datalink, quiet_lecom, quiet_love, quiet_lucid, receive_datalink, receive_lecom, receive_love, receive_lucid,
    Received,
};

/// A dialect's receiver.
pub struct Receiver {
    name: &'static str,
    /// Bytes come for it.
    pub receive: fn(&mut Card, &[u8], &mut [u8]) -> Received,
    /// Its line is quiet.
    pub quiet: fn(&mut Card) -> Number,
    /// Its part frame: the count and the bytes.
    pub part: fn(&Ports) -> (u16, &[u8]),
    /// The same to be stored in.
    pub part_mut: fn(&mut Ports) -> (&mut u16, &mut [u8]),
}

const RECEIVERS: [Receiver; 4] = [
    Receiver {
        name: "datalink",
        receive: receive_datalink,
        quiet: quiet_datalink,
        part: |ports| (ports.datalink.count, &ports.datalink.bytes),
        part_mut: |ports| (&mut ports.datalink.count, &mut ports.datalink.bytes),
    },
    Receiver {
        name: "lecom",
        receive: receive_lecom,
        quiet: quiet_lecom,
        part: |ports| (ports.lecom.count, &ports.lecom.bytes),
        part_mut: |ports| (&mut ports.lecom.count, &mut ports.lecom.bytes),
    },
    Receiver {
        name: "love",
        receive: receive_love,
        quiet: quiet_love,
        part: |ports| (ports.love.count, &ports.love.bytes),
        part_mut: |ports| (&mut ports.love.count, &mut ports.love.bytes),
    },
    Receiver {
        name: "lucid",
        receive: receive_lucid,
        quiet: quiet_lucid,
        part: |ports| (ports.lucid.count, &ports.lucid.bytes),
        part_mut: |ports| (&mut ports.lucid.count, &mut ports.lucid.bytes),
    },
];

/// The receiver that a word names.
pub fn receiver(word: &[u8]) -> Result<&'static Receiver, Unreadable> {
    RECEIVERS
        .iter()
        .find(|receiver| receiver.name.as_bytes() == word)
        .ok_or(Unreadable)
}
