//! The masters of a console line (docs/CONSOLE.md): requests as `ask` reads them and `reply` finds them again.

use super::words::{all_unsigned, end, room, signed, split_unsigned, split_word, unsigned, Unreadable, ROOM_MOST};
use super::Error;
use crate::masters::{lecom, love, lucid, Heard};
use crate::numbers::Reply;

/// The request last asked in each dialect.
#[derive(Default)]
pub struct Asked {
    lecom: Option<lecom::Request>,
    love: Option<love::Request>,
    lucid: Option<KeptLucid>,
}

/// The request that the console keeps for LucidControl's master.
struct KeptLucid {
    /// The request without the values of a group.
    request: lucid::Request<'static>,
    values: Vec<u32>,
}

impl KeptLucid {
    fn lent(&self) -> lucid::Request<'_> {
        match self.request {
            lucid::Request::SetIoGroup { mask, value_type, .. } => lucid::Request::SetIoGroup {
                mask,
                value_type,
                values: &self.values,
            },
            request => request,
        }
    }
}

impl Asked {
    /// Reads a dialect, ROOM and a request, which is then kept, and makes its frame in so much of the room.
    pub fn ask(&mut self, words: &[u8], lent: &mut [u8; ROOM_MOST]) -> Result<Reply, Unreadable> {
        let (dialect, words) = split_word(words);
        let (room, words) = room(words)?;
        let frame = &mut lent[..room];
        match dialect {
            b"lecom" => Ok(lecom::make(self.lecom.insert(lecom_request(words)?), frame)),
            b"love" => Ok(love::make(self.love.insert(love_request(words)?), frame)),
            b"lucid" => {
                let kept = self.lucid.insert(lucid_request(words)?);
                Ok(lucid::make(&kept.lent(), frame))
            }
            _ => Err(Unreadable),
        }
    }

    /// Reads a reply to the request last asked in a dialect.
    pub fn hear(&self, dialect: &[u8], reply: &[u8]) -> Result<Heard, Error> {
        match dialect {
            b"lecom" => Ok(lecom::hear(self.lecom.as_ref().ok_or(Error::NoRequest)?, reply)),
            b"love" => Ok(love::hear(self.love.as_ref().ok_or(Error::NoRequest)?, reply)),
            b"lucid" => {
                let kept = self.lucid.as_ref().ok_or(Error::NoRequest)?;
                Ok(lucid::hear(&kept.lent(), reply))
            }
            _ => Err(Error::Expected),
        }
    }
}

/// `ADDRESS read CODE` or `ADDRESS write CODE VALUE`.
fn lecom_request(words: &[u8]) -> Result<lecom::Request, Unreadable> {
    let (address, words) = split_unsigned(words)?;
    let (order, words) = split_word(words);
    let (code, words) = split_unsigned(words)?;
    let (value, rest) = split_word(words);
    end(rest)?;
    let order = match (order, value) {
        (b"read", b"") => lecom::Order::Read,
        (b"write", _) => lecom::Order::Write(signed(value)?),
        _ => return Err(Unreadable),
    };
    Ok(lecom::Request { address, code, order })
}

/// `ADDRESS status`, `ADDRESS read PLACE` or `ADDRESS write PLACE VALUE`.
fn love_request(words: &[u8]) -> Result<love::Request, Unreadable> {
    let (address, words) = split_unsigned(words)?;
    let (order, words) = split_word(words);
    let (place, words) = split_word(words);
    let (value, rest) = split_word(words);
    end(rest)?;
    let order = match (order, place, value) {
        (b"status", b"", b"") => love::Order::Status,
        (b"read", _, b"") => love::Order::Read {
            place: unsigned(place)?,
        },
        (b"write", _, _) => love::Order::Write {
            place: unsigned(place)?,
            value: signed(value)?,
        },
        _ => return Err(Unreadable),
    };
    Ok(love::Request { address, order })
}

/// A command, a channel or mask, a type or option, and what else the command takes.
fn lucid_request(words: &[u8]) -> Result<KeptLucid, Unreadable> {
    use lucid::Request::{GetIo, GetIoGroup, GetParam, Reset, SetIo, SetIoGroup, SetParam};
    let (command, words) = split_word(words);
    let (channel, words) = split_unsigned(words)?;
    let (option, words) = split_unsigned(words)?;
    let (mask, value_type) = (channel, option);
    let values = all_unsigned(words)?;
    let request = match (command, &values[..]) {
        (b"getio", []) => GetIo { channel, value_type },
        (b"getiogroup", []) => GetIoGroup { mask, value_type },
        (b"setio", &[value]) => SetIo {
            channel,
            value_type,
            value,
        },
        (b"setiogroup", _) => SetIoGroup {
            mask,
            value_type,
            values: &[],
        },
        (b"getparam", &[address]) => GetParam {
            channel,
            option,
            address,
        },
        (b"setparam", &[address, value]) => SetParam {
            channel,
            option,
            address,
            value,
        },
        (b"reset", &[address]) => Reset {
            channel,
            option,
            address,
        },
        _ => return Err(Unreadable),
    };
    Ok(KeptLucid { request, values })
}
