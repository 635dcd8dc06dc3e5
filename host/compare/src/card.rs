//! The card's tables as pokes and peeks see them: places, ranges and what an entry can hold.

use crate::rng::Rng;

/// The table of all Datalink bytes; every other table is small.
pub const MEMORY: &str = "memory";
/// Entries of the table of Datalink bytes.
pub const MEMORY_PLACES: usize = 4096;
/// The first Datalink address.
pub const MEMORY_START: u16 = 0x1000;
/// The first writable Datalink address.
pub const WRITABLE_START: u16 = 0x1010;
/// The first Datalink address past the memory.
pub const MEMORY_END: u16 = 0x2000;
/// The small tables, in the order in which scripts peek them.
pub const SMALL_TABLES: [&str; 10] = [
    "address",
    "probe",
    "buffer",
    "operational",
    "saved",
    "love",
    "demand",
    "parameter",
    "kept",
    "pending",
];
/// The tables of the part frames (document 02, M-100), which only consoles with receivers have.
pub const PART_TABLES: [&str; 4] = ["part datalink", "part lecom", "part love", "part lucid"];
/// The word before a dialect that names the table of its part frame.
pub const PART: &str = "part";
/// LECOM registers in each copy.
pub const REGISTERS: usize = 96;
/// LucidControl parameters of all channels.
pub const PARAMETERS: usize = 8;
/// Channels of probes and fan demands.
pub const CHANNELS: usize = 4;
/// Love parameters.
pub const LOVE_PARAMETERS: usize = 4;

/// The highest I.A. (this range and those below: document 01, "What the card holds").
pub const IA_MOST: i64 = 31;
/// The highest Love address.
pub const LOVE_ADDRESS_MOST: i64 = 0x3FF;
/// The lowest and highest LECOM register.
pub const REGISTER_RANGE: (i64, i64) = (-999_999, 999_999);
/// The lowest and highest Love parameter, in tenths.
pub const LOVE_RANGE: (i64, i64) = (-400, 870);
/// The lowest and highest fan demand.
pub const DEMAND_RANGE: (i64, i64) = (0, 65_535);
/// The lowest and highest value of the LucidControl parameters 1110h and 1120h.
pub const PARAMETER_RANGES: [(i64, i64); 2] = [(1_000, 60_000_000), (0, 65_535)];
/// The defaults of the LucidControl parameters 1110h and 1120h.
pub const PARAMETER_DEFAULTS: [i64; 2] = [1_000_000, 0];

/// Probe codes worth a look: both ends, a degree below zero, zero, five degrees, and the fault.
pub const TELLING_CODES: [u8; 7] = [0, 1, 78, 80, 90, 254, 255];

/// One entry of a table.
#[derive(Clone, Copy, PartialEq, Eq, Debug)]
pub struct Place {
    /// The table's name.
    pub table: &'static str,
    /// Which entry.
    pub place: usize,
}

/// Every entry of the short tables that document 01 gives a range.
pub fn short_places() -> Vec<Place> {
    let tables = [
        ("address", 3),
        ("love", LOVE_PARAMETERS),
        ("demand", CHANNELS),
        ("parameter", PARAMETERS),
        ("kept", PARAMETERS),
    ];
    tables
        .iter()
        .flat_map(|&(table, places)| (0..places).map(move |place| Place { table, place }))
        .collect()
}

/// Every register of the three copies, from both ends to the middle.
pub fn register_places() -> Vec<Place> {
    let inward = (0..REGISTERS / 2).flat_map(|place| [place, REGISTERS - 1 - place]);
    inward
        .flat_map(|place| ["buffer", "operational", "saved"].map(|table| Place { table, place }))
        .collect()
}

/// Every entry that document 01 gives a range.
pub fn ranged_places() -> Vec<Place> {
    let mut places = short_places();
    places.extend(register_places());
    places
}

impl Place {
    /// The lowest and highest fit value.
    fn range(self) -> (i64, i64) {
        match (self.table, self.place) {
            ("address", 0) => (0, IA_MOST),
            ("address", 1) => (11, 99),
            ("address", _) => (1, LOVE_ADDRESS_MOST),
            ("love", _) => LOVE_RANGE,
            ("demand", _) => DEMAND_RANGE,
            ("parameter" | "kept", place) => PARAMETER_RANGES[place % 2],
            _ => REGISTER_RANGE,
        }
    }

    /// The lowest and highest value that can be poked.
    fn holds(self) -> (i64, i64) {
        match self.table {
            "buffer" | "operational" | "saved" | "love" => (i64::from(i32::MIN), i64::from(i32::MAX)),
            _ => (0, i64::from(u32::MAX)),
        }
    }

    /// Values on both sides of each limit.
    pub fn limits(self) -> Vec<i64> {
        let (lowest, highest) = self.range();
        let (least, most) = self.holds();
        let mut values = vec![lowest - 1, lowest, highest, highest + 1];
        match (self.table, self.place) {
            ("address", 1) => values.extend([1, 19, 20, 21, 90, 110, 111]),
            ("address", 2) => values.extend([0xFF, 0x100, 0x101, 0x200, 0x300, 0x401]),
            _ => {}
        }
        values.retain(|value| (least..=most).contains(value));
        values
    }

    /// A value inside its range.
    pub fn fit_value(self, rng: &mut Rng) -> i64 {
        match (self.table, self.place) {
            ("address", 1) => lecom_address(rng),
            ("address", 2) => love_address(rng),
            _ => {
                let (lowest, highest) = self.range();
                rng.between(lowest, highest)
            }
        }
    }

    /// Any value that can be poked: at a limit, around one, inside, the type's ends, wild, or a fit one that lost
    /// its place in a wider type.
    pub fn any_value(self, rng: &mut Rng) -> i64 {
        let (lowest, highest) = self.range();
        let (least, most) = self.holds();
        let fit = self.fit_value(rng);
        let near = rng.between(2, 100);
        let bit = rng.pick(&[8, 10, 16, 24, 31]);
        let choices = [
            rng.pick(&self.limits()),
            rng.pick(&self.limits()),
            lowest - near,
            highest + near,
            least,
            most,
            fit,
            fit + (1 << bit),
            (1 << bit) - 1,
            1 << bit,
            rng.between(least, most),
        ];
        rng.pick(&choices).clamp(least, most)
    }
}

/// A LECOM address: 11 to 99 without a zero figure.
pub fn lecom_address(rng: &mut Rng) -> i64 {
    10 * rng.between(1, 9) + rng.between(1, 9)
}

/// A Love address: 1 to 3FFh, low two hex figures not 00.
pub fn love_address(rng: &mut Rng) -> i64 {
    0x100 * rng.between(0, 3) + rng.between(1, 0xFF)
}

/// A probe code, often a telling one.
pub fn probe_code(rng: &mut Rng) -> u8 {
    if rng.chance(50) {
        rng.pick(&TELLING_CODES)
    } else {
        rng.byte()
    }
}
