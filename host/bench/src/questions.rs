//! Requests of the masters of LECOM, Love and LucidControl, as both sides take them.

use reference::masters::{lecom, love, lucid};

use crate::archive::{GET_IO, GET_IO_GROUP, GET_PARAM, READ, RESET, SET_IO, SET_IO_GROUP, SET_PARAM, STATUS, WRITE};
use crate::calls::Entry;

/// A request to a unit in LECOM or Love; and the same as the second program takes it, which a caller makes once.
pub struct UnitQuestion<Second> {
    pub address: u32,
    /// [`READ`], [`WRITE`] or [`STATUS`].
    pub task: u8,
    /// LECOM's code, or the place of Love's parameter.
    pub place: u32,
    pub value: i32,
    pub second: Second,
}

impl From<lecom::Request> for UnitQuestion<lecom::Request> {
    fn from(second: lecom::Request) -> Self {
        let (task, value) = match second.order {
            lecom::Order::Read => (READ, 0),
            lecom::Order::Write(value) => (WRITE, value),
        };
        Self {
            address: second.address,
            task,
            place: second.code,
            value,
            second,
        }
    }
}

impl From<love::Request> for UnitQuestion<love::Request> {
    fn from(second: love::Request) -> Self {
        let (task, place, value) = match second.order {
            love::Order::Status => (STATUS, 0, 0),
            love::Order::Read { place } => (READ, place, 0),
            love::Order::Write { place, value } => (WRITE, place, value),
        };
        Self {
            address: second.address,
            task,
            place,
            value,
            second,
        }
    }
}

/// A request in LucidControl; and the same as the second program takes it.
pub struct LucidQuestion {
    /// [`GET_IO`] to [`RESET`].
    pub command: u8,
    /// Channel or mask.
    pub p1: u32,
    /// Type or option.
    pub p2: u32,
    pub address: u32,
    pub values: Vec<u32>,
    pub second: lucid::Request<'static>,
}

impl From<lucid::Request<'static>> for LucidQuestion {
    fn from(second: lucid::Request<'static>) -> Self {
        use lucid::Request::{GetIo, GetIoGroup, GetParam, Reset, SetIo, SetIoGroup, SetParam};
        let (command, p1, p2) = match second {
            GetIo { channel, value_type } => (GET_IO, channel, value_type),
            GetIoGroup { mask, value_type } => (GET_IO_GROUP, mask, value_type),
            SetIo {
                channel, value_type, ..
            } => (SET_IO, channel, value_type),
            SetIoGroup { mask, value_type, .. } => (SET_IO_GROUP, mask, value_type),
            GetParam { channel, option, .. } => (GET_PARAM, channel, option),
            SetParam { channel, option, .. } => (SET_PARAM, channel, option),
            Reset { channel, option, .. } => (RESET, channel, option),
        };
        let address = match second {
            GetParam { address, .. } | SetParam { address, .. } | Reset { address, .. } => address,
            _ => 0,
        };
        let values = match second {
            SetIo { value, .. } | SetParam { value, .. } => vec![value],
            SetIoGroup { values, .. } => values.to_vec(),
            _ => Vec::new(),
        };
        Self {
            command,
            p1,
            p2,
            address,
            values,
            second,
        }
    }
}

/// A request in each dialect; a call has its own dialect's.
pub struct Questions {
    pub lecom: UnitQuestion<lecom::Request>,
    pub love: UnitQuestion<love::Request>,
    pub lucid: LucidQuestion,
}

impl Questions {
    /// Those of a call that asks nothing.
    pub fn none() -> Self {
        let lecom = lecom::Request {
            address: 0,
            code: 0,
            order: lecom::Order::Read,
        };
        let love = love::Request {
            address: 0,
            order: love::Order::Status,
        };
        let lucid = lucid::Request::GetIo {
            channel: 0,
            value_type: 0,
        };
        Self {
            lecom: lecom.into(),
            love: love.into(),
            lucid: lucid.into(),
        }
    }
}

/// A request of one of the dialects.
pub trait Asked {
    /// The entries that make its frame and read a reply to it.
    const ASK: Entry;
    const HEAR: Entry;

    /// Puts it in its dialect's place.
    fn put(self, questions: &mut Questions);
}

impl Asked for lecom::Request {
    const ASK: Entry = Entry::AskLecom;
    const HEAR: Entry = Entry::HearLecom;

    fn put(self, questions: &mut Questions) {
        questions.lecom = self.into();
    }
}

impl Asked for love::Request {
    const ASK: Entry = Entry::AskLove;
    const HEAR: Entry = Entry::HearLove;

    fn put(self, questions: &mut Questions) {
        questions.love = self.into();
    }
}

impl Asked for lucid::Request<'static> {
    const ASK: Entry = Entry::AskLucid;
    const HEAR: Entry = Entry::HearLucid;

    fn put(self, questions: &mut Questions) {
        questions.lucid = self.into();
    }
}
