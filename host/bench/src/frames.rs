//! Frames and replies of each dialect, by document 01, for a card with I.A. 3, LECOM address 11 and Love address 32h.

/// Datalink command bits plus I.A.
pub const INTERROGATE: u8 = 0xE3;
pub const CHANGE: u8 = 0xA3;
pub const CHANGE_BITS: u8 = 0xC3;
pub const RESPONSE: u8 = 0x23;
pub const ACKNOWLEDGE: [u8; 2] = [0x7E, 0x83];
/// The same with another unit's I.A.
pub const FOREIGN_INTERROGATE: u8 = 0xE4;
pub const FOREIGN_RESPONSE: u8 = 0x24;

/// The characters that LECOM and Love begin and end with.
pub const STX: u8 = 0x02;
pub const ETX: u8 = 0x03;
pub const EOT: u8 = 0x04;
pub const ENQ: u8 = 0x05;
pub const ACK: u8 = 0x06;
pub const NAK: u8 = 0x15;

fn sum(bytes: &[u8]) -> u8 {
    bytes.iter().fold(0, |sum, &byte| sum.wrapping_add(byte))
}

/// A Datalink frame: 7Eh, command and I.A., NUM, address, data, LRC.
pub fn datalink(command: u8, num: u8, address: u16, data: &[u8]) -> Vec<u8> {
    let [low, high] = address.to_le_bytes();
    let mut frame = vec![0x7E, command, num, low, high];
    frame.extend(data);
    frame.push(sum(&frame[1..]));
    frame
}

/// An Interrogate of `num` bytes.
pub fn interrogate(address: u16, num: u8) -> Vec<u8> {
    datalink(INTERROGATE, num, address, &[])
}

/// A Change or Change Bits with `num` data bytes.
pub fn change(command: u8, address: u16, num: u8) -> Vec<u8> {
    let data: Vec<u8> = (0..num).map(|place| place.wrapping_mul(29)).collect();
    datalink(command, num, address, &data)
}

/// A LECOM read of a code.
pub fn lecom_read(unit: &str, code: &str) -> Vec<u8> {
    [&[EOT], unit.as_bytes(), code.as_bytes(), &[ENQ]].concat()
}

/// A LECOM write of data to a code.
pub fn lecom_write(unit: &str, code: &str, data: &str) -> Vec<u8> {
    [&[EOT], unit.as_bytes(), &lecom_data(code, data)].concat()
}

/// Code and data in LECOM with what stands around them, in a write and in the reply to a read.
pub fn lecom_data(code: &str, data: &str) -> Vec<u8> {
    let checked = [code.as_bytes(), data.as_bytes(), &[ETX]].concat();
    let bcc = checked.iter().fold(0, |bcc, &character| bcc ^ character);
    [&[STX], &checked[..], &[bcc]].concat()
}

/// LECOM's reply to a read of an unknown code.
pub fn lecom_unknown(code: &str) -> Vec<u8> {
    [&[STX], code.as_bytes(), &[EOT]].concat()
}

/// A Love frame to a filter and address.
pub fn love(unit: &str, data: &str) -> Vec<u8> {
    let (filter, address) = unit.split_at(1);
    let checked = [address.as_bytes(), data.as_bytes()].concat();
    let checksum = format!("{:02X}", sum(&checked));
    [&[STX], filter.as_bytes(), &checked, checksum.as_bytes(), &[ETX]].concat()
}

/// A Love reply, whose checksum takes in the filter.
pub fn love_reply(unit: &str, data: &str) -> Vec<u8> {
    let checked = [unit.as_bytes(), data.as_bytes()].concat();
    let checksum = format!("{:02X}", sum(&checked));
    [&[STX], &checked[..], checksum.as_bytes(), &[ACK]].concat()
}

/// A Love error reply.
pub fn love_error(unit: &str, code: &str) -> Vec<u8> {
    [&[STX], unit.as_bytes(), b"N", code.as_bytes(), &[ACK]].concat()
}

/// A LucidControl frame.
pub fn lucid(opc: u8, p1: u8, p2: u8, data: &[u8]) -> Vec<u8> {
    [&[opc, p1, p2, data.len() as u8], data].concat()
}

/// A LucidControl reply.
pub fn lucid_reply(status: u8, data: &[u8]) -> Vec<u8> {
    [&[status, data.len() as u8], data].concat()
}
