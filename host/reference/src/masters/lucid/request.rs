//! LucidControl's requests, and which of them documents 01 and 02 have.

use crate::card::{CHANNELS, DEMAND_RANGE, PARAMETER_RANGES};
use crate::lucid::{
    MASK_MOST, OPTION_DEFAULT, OPTION_PERSISTENT, PARAMETER_ADDRESSES, TYPE_DEMAND, TYPE_HUNDREDTHS, TYPE_TENTHS,
};

/// What is asked, by its command.
#[derive(Clone, Copy, PartialEq, Eq, Debug)]
pub enum Request<'a> {
    /// The value of a channel.
    GetIo {
        /// The channel.
        channel: u32,
        /// The value's type.
        value_type: u32,
    },
    /// The values of a group.
    GetIoGroup {
        /// The mask of channels.
        mask: u32,
        /// The values' type.
        value_type: u32,
    },
    /// A new value of a channel.
    SetIo {
        /// The channel.
        channel: u32,
        /// The value's type.
        value_type: u32,
        /// The value.
        value: u32,
    },
    /// New values of a group.
    SetIoGroup {
        /// The mask of channels.
        mask: u32,
        /// The values' type.
        value_type: u32,
        /// The values, lowest channel first.
        values: &'a [u32],
    },
    /// The value of a parameter.
    GetParam {
        /// The channel.
        channel: u32,
        /// The option byte.
        option: u32,
        /// The parameter's address.
        address: u32,
    },
    /// A new value of a parameter: SetParam without the option of its default.
    SetParam {
        /// The channel.
        channel: u32,
        /// The option byte.
        option: u32,
        /// The parameter's address.
        address: u32,
        /// The value.
        value: u32,
    },
    /// The default of a parameter: SetParam with that option.
    Reset {
        /// The channel.
        channel: u32,
        /// The option byte.
        option: u32,
        /// The parameter's address.
        address: u32,
    },
}

impl Request<'_> {
    /// Whether documents 01 and 02 have such a request.
    #[inline(always)]
    pub(super) fn is_inside(&self) -> bool {
        match *self {
            Self::GetIo { channel, value_type } => is_channel(channel) && is_read(value_type),
            Self::GetIoGroup { mask, value_type } => is_mask(mask) && is_read(value_type),
            Self::SetIo {
                channel,
                value_type,
                value,
            } => is_channel(channel) && is_written(value_type) && are_demands(&[value]),
            Self::SetIoGroup {
                mask,
                value_type,
                values,
            } => is_mask(mask) && is_written(value_type) && values.len() == channels(mask) && are_demands(values),
            Self::GetParam {
                channel,
                option,
                address,
            } => is_channel(channel) && option == 0 && parameter(address).is_some(),
            Self::SetParam {
                channel,
                option,
                address,
                value,
            } => is_channel(channel) && set_option(option) == Some(0) && takes(address, value),
            Self::Reset {
                channel,
                option,
                address,
            } => is_channel(channel) && set_option(option) == Some(OPTION_DEFAULT) && parameter(address).is_some(),
        }
    }

    /// Whether there is nothing to be answered but that it is done.
    #[inline(always)]
    pub(super) fn is_set(&self) -> bool {
        !matches!(
            self,
            Self::GetIo { .. } | Self::GetIoGroup { .. } | Self::GetParam { .. }
        )
    }
}

#[inline(always)]
fn is_channel(channel: u32) -> bool {
    channel < CHANNELS as u32
}

#[inline(always)]
fn is_mask(mask: u32) -> bool {
    (1..=MASK_MOST.into()).contains(&mask)
}

/// How many channels a mask names.
#[inline(always)]
pub(super) fn channels(mask: u32) -> usize {
    /// For each mask of channels.
    const COUNTS: [u8; MASK_MOST as usize + 1] = {
        let mut counts = [0; MASK_MOST as usize + 1];
        let mut mask = 0;
        while mask < counts.len() {
            counts[mask] = mask.count_ones() as u8;
            mask += 1;
        }
        counts
    };
    COUNTS[mask as usize % COUNTS.len()].into()
}

/// Whether values of a type can be read.
#[inline(always)]
fn is_read(value_type: u32) -> bool {
    matches!(
        u8::try_from(value_type),
        Ok(TYPE_DEMAND | TYPE_TENTHS | TYPE_HUNDREDTHS)
    )
}

/// Whether values of a type can be written: those of probes cannot.
#[inline(always)]
fn is_written(value_type: u32) -> bool {
    value_type == TYPE_DEMAND.into()
}

/// Whether there are no more values than channels, and all are demands. Every value of sixteen bits is one, so their or
/// tells.
#[inline(always)]
fn are_demands(values: &[u32]) -> bool {
    let all = match *values {
        [] => 0,
        [a] => a,
        [a, b] => a | b,
        [a, b, c] => a | b | c,
        [a, b, c, d] => a | b | c | d,
        _ => return false,
    };
    !DEMAND_RANGE.excludes_unsigned(all)
}

/// An option of SetParam without its persistence, if it has no unknown bit.
#[inline(always)]
fn set_option(option: u32) -> Option<u8> {
    let option = u8::try_from(option).ok()? & !OPTION_PERSISTENT;
    (option & !OPTION_DEFAULT == 0).then_some(option)
}

/// Which of a channel's parameters an address names.
#[inline(always)]
fn parameter(address: u32) -> Option<usize> {
    PARAMETER_ADDRESSES
        .iter()
        .position(|&known| u32::from(known) == address)
}

/// Whether the parameter at an address can have a value.
#[inline(always)]
pub(super) fn takes(address: u32, value: u32) -> bool {
    parameter(address).is_some_and(|parameter| !PARAMETER_RANGES[parameter].excludes_unsigned(value))
}
