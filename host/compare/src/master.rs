//! Limits of the line master's requests and exchanges (document 01, "Datalink", second half).

/// Most bytes of a request.
pub const BYTES_MOST: usize = 32;
/// Most pairs of mask and state of a request.
pub const BITS_MOST: usize = 16;
/// Where the last byte of a request must end.
pub const ADDRESS_END: i64 = 65_536;
/// Rounds of an exchange: change, acknowledge, interrogate.
pub const ROUNDS: usize = 3;
/// Arrivals of a frame in its round; any further one is another frame.
pub const ARRIVALS_MOST: usize = 2;
