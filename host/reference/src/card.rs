//! What the card holds, its fitness, and the entries without a dialect (document 01, "What the card holds").

use crate::numbers::Number;
use crate::{datalink, lecom, love, lucid};

/// Probes, fan demands and LucidControl channels.
pub const CHANNELS: usize = 4;
/// LECOM registers in each copy, codes 00h to 5Fh.
pub const REGISTERS: usize = 96;
/// LucidControl parameters of one channel: 1110h and 1120h.
pub const CHANNEL_PARAMETERS: usize = 2;
/// Bytes of Datalink memory.
pub const MEMORY: usize = 4096;
/// First Datalink address.
pub const MEMORY_START: u16 = 0x1000;
/// First Datalink address past the memory.
pub const MEMORY_END: u16 = 0x2000;
/// First Datalink address that may be written.
pub const WRITABLE_START: u16 = 0x1010;
/// Most data bytes of a Datalink message.
pub const NUM_MOST: usize = 32;

/// The probe code that means fault.
pub const FAULT_CODE: u8 = 255;
/// The temperature of code 0, in tenths.
const LOWEST_TENTHS: i16 = -400;
/// From the temperature of one code to that of the next, in tenths.
const STEP_TENTHS: i16 = 5;
/// The demand after a restart.
pub const RESTART_DEMAND: u32 = 65_535;
/// Smallest and largest demand.
pub const DEMAND_RANGE: Range = SIXTEEN_BITS;
/// Smallest and largest LECOM register.
pub const REGISTER_RANGE: Range = Range::new(-999_999, 999_999);
/// Smallest and largest Love parameter, in tenths.
pub const LOVE_RANGE: Range = Range::new(-400, 870);
/// Smallest and largest value of the parameters 1110h and 1120h.
pub const PARAMETER_RANGES: [Range; CHANNEL_PARAMETERS] = [Range::new(1_000, 60_000_000), SIXTEEN_BITS];
/// Every value of sixteen bits, and no other.
const SIXTEEN_BITS: Range = Range::new(0, 65_535);
/// Defaults of the parameters 1110h and 1120h.
pub const PARAMETER_DEFAULTS: [u32; CHANNEL_PARAMETERS] = [1_000_000, 0];
/// All parameters at their defaults.
const DEFAULT_PARAMETERS: Parameters = [[PARAMETER_DEFAULTS[0]; CHANNELS], [PARAMETER_DEFAULTS[1]; CHANNELS]];

/// Pending kind: none; the other fields are then not looked at.
pub const PENDING_NONE: u8 = 0;
/// Pending kind: a Change.
pub const PENDING_CHANGE: u8 = 1;
/// Pending kind: a Change Bits.
pub const PENDING_BITS: u8 = 2;

/// The least and the most value of an entry, both taken in.
#[derive(Clone, Copy)]
pub struct Range {
    /// The least value.
    pub least: i32,
    /// The most value.
    pub most: i32,
    /// Moves the least value to the least `i32`, and with it the most to `limit`.
    shift: i32,
    limit: i32,
}

impl Range {
    const fn new(least: i32, most: i32) -> Self {
        let shift = i32::MIN.wrapping_sub(least);
        Self {
            least,
            most,
            shift,
            limit: most.wrapping_add(shift),
        }
    }

    /// Whether a value lies outside: moved by `shift`, it is then above the limit on either side. This is one comparison
    /// of signed values, of which the processor makes four at a time.
    #[inline]
    pub const fn excludes(&self, value: i32) -> bool {
        value.wrapping_add(self.shift) > self.limit
    }

    /// The same of an unsigned value: above the most `i32` it turns negative, and no unsigned range has a negative least.
    #[inline]
    pub const fn excludes_unsigned(&self, value: u32) -> bool {
        self.excludes(value as i32)
    }

    /// Whether any of the values lies outside. The loop runs to its end, so that the compiler can take many at once.
    #[inline]
    pub fn excludes_any<const N: usize>(&self, values: &[i32; N]) -> bool {
        values.iter().fold(false, |any, &value| any | self.excludes(value))
    }

    /// The same of unsigned values.
    #[inline]
    pub fn excludes_any_unsigned<const N: usize>(&self, values: &[u32; N]) -> bool {
        values
            .iter()
            .fold(false, |any, &value| any | self.excludes_unsigned(value))
    }
}

/// LucidControl parameters: 1110h of every channel, then 1120h of every channel.
pub type Parameters = [[u32; CHANNELS]; CHANNEL_PARAMETERS];

/// The parameters channel by channel, 1110h first, as the console and the image have them.
#[inline]
pub fn by_channel([first, second]: &Parameters) -> [u32; CHANNELS * CHANNEL_PARAMETERS] {
    std::array::from_fn(|place| [first, second][place % CHANNEL_PARAMETERS][place / CHANNEL_PARAMETERS])
}

/// A temperature in tenths of a degree.
#[derive(Clone, Copy, PartialEq, Eq, Debug)]
pub struct Tenths(pub i16);

/// A temperature in hundredths of a degree.
#[derive(Clone, Copy, PartialEq, Eq, Debug)]
pub struct Hundredths(pub i32);

impl Tenths {
    /// So many tenths, if a probe code gives them.
    #[inline]
    pub fn of_a_code(tenths: i32) -> Option<Self> {
        is_of_a_code(tenths, 1).then_some(Self(tenths as i16))
    }
}

impl Hundredths {
    /// So many hundredths, if a probe code gives them.
    #[inline]
    pub fn of_a_code(hundredths: i32) -> Option<Self> {
        is_of_a_code(hundredths, 10).then_some(Self(hundredths))
    }
}

/// Whether a probe code gives a temperature, counted in units of which so many are a tenth of a degree.
#[inline]
fn is_of_a_code(temperature: i32, tenth: i32) -> bool {
    let step = (i32::from(STEP_TENTHS) * tenth) as u32;
    let above_lowest = temperature.wrapping_sub(i32::from(LOWEST_TENTHS) * tenth) as u32;
    above_lowest < step * u32::from(FAULT_CODE) && above_lowest.is_multiple_of(step)
}

impl From<Tenths> for Hundredths {
    #[inline]
    fn from(tenths: Tenths) -> Self {
        Self(i32::from(tenths.0) * 10)
    }
}

/// The card's address in each dialect that has one.
#[derive(Clone, PartialEq, Eq, Debug)]
pub struct Addresses {
    /// Datalink I.A., 0 to 31.
    pub datalink: u32,
    /// LECOM, by [`is_lecom_unit`].
    pub lecom: u32,
    /// Love, by [`is_love_unit`].
    pub love: u32,
}

impl Addresses {
    /// Whether each address is one the card may have.
    #[inline]
    pub fn is_fit(&self) -> bool {
        let (lecom, love) = (is_lecom_unit(self.lecom), is_love_unit(self.love));
        self.datalink <= 31 && lecom && love
    }
}

/// Whether a card can have this LECOM address: 11 to 99 without a zero figure.
#[inline]
pub fn is_lecom_unit(address: u32) -> bool {
    (11..=99).contains(&address) && !address.is_multiple_of(10)
}

/// Whether a card can have this Love address: 1 to 3FFh, low two hex figures not 00.
#[inline]
pub fn is_love_unit(address: u32) -> bool {
    address <= 0x3FF && address & 0xFF != 0
}

/// The Datalink change that was echoed and waits for its acknowledge.
#[derive(Clone, PartialEq, Eq, Debug)]
pub struct Pending {
    /// [`PENDING_NONE`], [`PENDING_CHANGE`] or [`PENDING_BITS`].
    pub kind: u8,
    /// First Datalink address.
    pub address: u16,
    /// NUM as received.
    pub num: u8,
    /// The data as received; bytes from NUM on mean nothing.
    pub data: [u8; NUM_MOST],
}

impl Pending {
    /// None, or a change that the Datalink order would have echoed.
    #[inline]
    pub fn is_fit(&self) -> bool {
        self.kind == PENDING_NONE || self.would_be_echoed()
    }

    /// Whether the Datalink order would have echoed the change.
    #[inline]
    fn would_be_echoed(&self) -> bool {
        let named = match self.kind {
            PENDING_CHANGE => self.num,
            PENDING_BITS if self.num.is_multiple_of(2) => self.num / 2,
            _ => return false,
        };
        usize::from(self.num) <= NUM_MOST && in_memory(self.address, named) && is_writable(self.address, named)
    }
}

/// The bytes that a receiver has collected of a frame that is not finished (document 02, M-100).
#[derive(Clone, PartialEq, Eq, Debug)]
pub struct Part<const LONGEST: usize> {
    /// How many bytes were collected; none if the receiver is at rest.
    pub count: u16,
    /// The bytes; those behind the count mean nothing, but stay as they were.
    pub bytes: [u8; LONGEST],
}

impl<const LONGEST: usize> Part<LONGEST> {
    /// Nothing collected.
    const NONE: Self = Self {
        count: 0,
        bytes: [0; LONGEST],
    };
}

/// What the port keeps from call to call: the pending change, then the part frame of each dialect.
#[derive(Clone, PartialEq, Eq, Debug)]
pub struct Ports {
    /// The pending Datalink change.
    pub pending: Pending,
    /// The part frame of Datalink.
    pub datalink: Part<{ datalink::LONGEST }>,
    /// The part frame of LECOM.
    pub lecom: Part<{ lecom::LONGEST }>,
    /// The part frame of Love.
    pub love: Part<{ love::LONGEST }>,
    /// The part frame of LucidControl.
    pub lucid: Part<{ lucid::LONGEST }>,
}

impl Ports {
    /// Nothing pending and every receiver at rest.
    const NONE: Self = Self {
        pending: Pending {
            kind: PENDING_NONE,
            address: 0,
            num: 0,
            data: [0; NUM_MOST],
        },
        datalink: Part::NONE,
        lecom: Part::NONE,
        love: Part::NONE,
        lucid: Part::NONE,
    };

    /// Drops the pending change and every part frame, as a restart does.
    #[inline]
    fn drop_all(&mut self) {
        self.pending.kind = PENDING_NONE;
        self.datalink.count = 0;
        self.lecom.count = 0;
        self.love.count = 0;
        self.lucid.count = 0;
    }
}

/// Whether a range of Datalink bytes lies in the memory.
#[inline]
pub fn in_memory(address: u16, named: u8) -> bool {
    address >= MEMORY_START && u32::from(address) + u32::from(named) <= u32::from(MEMORY_END)
}

/// Whether a range of Datalink bytes names no read-only byte.
#[inline]
pub fn is_writable(address: u16, named: u8) -> bool {
    address >= WRITABLE_START || named == 0
}

/// The tables, as the caller lends them to each entry.
#[derive(Clone, PartialEq, Eq, Debug)]
pub struct Card {
    /// The card's addresses.
    pub addresses: Addresses,
    /// Datalink memory from 1000h; the first four bytes are the probe codes themselves.
    pub memory: [u8; MEMORY],
    /// LECOM registers as written.
    pub buffer: [i32; REGISTERS],
    /// LECOM registers as read.
    pub operational: [i32; REGISTERS],
    /// LECOM registers as stored.
    pub saved: [i32; REGISTERS],
    /// Love parameters SP1, SP2, ALLO, ALHI in tenths.
    pub love: [i32; 4],
    /// Fan demands.
    pub demand: [u32; CHANNELS],
    /// LucidControl parameters.
    pub parameter: Parameters,
    /// Saved copies of the LucidControl parameters.
    pub kept: Parameters,
    /// The pending change and the part frames.
    pub ports: Ports,
}

impl Card {
    /// The card as the console starts with it (docs/CONSOLE.md, "Tables").
    pub fn new() -> Self {
        let mut memory = [0; MEMORY];
        memory[..CHANNELS].fill(FAULT_CODE);
        Self {
            addresses: Addresses {
                datalink: 3,
                lecom: 11,
                love: 0x32,
            },
            memory,
            buffer: [0; REGISTERS],
            operational: [0; REGISTERS],
            saved: [0; REGISTERS],
            love: [0; 4],
            demand: [RESTART_DEMAND; CHANNELS],
            parameter: DEFAULT_PARAMETERS,
            kept: DEFAULT_PARAMETERS,
            ports: Ports::NONE,
        }
    }

    /// Whether addresses, entries and pending change keep document 01's rules; number 12 if not. Probe codes and memory
    /// bytes have no unfit value, and only the receivers look at part frames.
    ///
    /// Kept out of line: where it is inlined, the compiler turns some of its tests about and needs more instructions.
    #[inline(never)]
    pub fn is_fit(&self) -> bool {
        !self.has_register_outside()
            && !self.has_four_outside()
            && self.addresses.is_fit()
            && self.ports.pending.is_fit()
    }

    /// Whether a register of any copy is outside its range.
    #[inline]
    fn has_register_outside(&self) -> bool {
        REGISTER_RANGE.excludes_any(&self.buffer)
            || REGISTER_RANGE.excludes_any(&self.operational)
            || REGISTER_RANGE.excludes_any(&self.saved)
    }

    /// Whether a Love parameter, a demand or a LucidControl parameter is outside its range.
    #[inline]
    fn has_four_outside(&self) -> bool {
        let ([first, second], [first_kept, second_kept]) = (&self.parameter, &self.kept);
        // Values are all of sixteen bits exactly if their or is.
        let sixteen_bits = self.demand.iter().chain(second).chain(second_kept);
        LOVE_RANGE.excludes_any(&self.love)
            || PARAMETER_RANGES[0].excludes_any_unsigned(first)
            || PARAMETER_RANGES[0].excludes_any_unsigned(first_kept)
            || SIXTEEN_BITS.excludes_unsigned(sixteen_bits.fold(0, |all, value| all | value))
    }

    /// The temperature of a probe, or none at fault.
    #[inline]
    pub fn temperature(&self, channel: usize) -> Option<Tenths> {
        match self.memory[..CHANNELS][channel] {
            FAULT_CODE => None,
            code => Some(Tenths(STEP_TENTHS * i16::from(code) + LOWEST_TENTHS)),
        }
    }
}

impl Default for Card {
    fn default() -> Self {
        Self::new()
    }
}

/// Entry: set a probe code.
pub fn set_probe(card: &mut Card, channel: u8, code: u8) -> Number {
    if !card.is_fit() {
        return Number::Unfit;
    }
    match card.memory[..CHANNELS].get_mut(usize::from(channel)) {
        None => Number::Unknown,
        Some(entry) => {
            *entry = code;
            Number::Silent
        }
    }
}

/// Entry: restart.
pub fn restart(card: &mut Card) -> Number {
    if !card.is_fit() {
        return Number::Unfit;
    }
    for ((buffer, operational), &saved) in card.buffer.iter_mut().zip(&mut card.operational).zip(&card.saved) {
        *buffer = saved;
        *operational = saved;
    }
    card.parameter = card.kept;
    card.demand = [RESTART_DEMAND; CHANNELS];
    card.memory[..CHANNELS].fill(FAULT_CODE);
    card.ports.drop_all();
    Number::Silent
}

/// What the governor receives.
#[derive(Clone, Copy, PartialEq, Debug)]
pub enum Governor {
    /// Degrees, exact.
    Degrees(f32),
    /// The word fault and no degrees, number 9.
    Fault,
    /// The word refused, with its number: 12, then 6.
    Refused(Number),
}

/// Entry: give the governor a reading.
pub fn governor(card: &Card, channel: u8) -> Governor {
    if !card.is_fit() {
        return Governor::Refused(Number::Unfit);
    }
    match card.memory[..CHANNELS].get(usize::from(channel)) {
        None => Governor::Refused(Number::Unknown),
        Some(&FAULT_CODE) => Governor::Fault,
        Some(&code) => Governor::Degrees(f32::from(code) * 0.5 - 40.0),
    }
}
