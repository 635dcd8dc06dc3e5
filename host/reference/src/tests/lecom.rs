use super::{call, hex};
use crate::card::Card;

fn sent(card: &mut Card, frame: &[u8]) -> (u8, Vec<u8>) {
    call(crate::lecom::lecom, card, frame)
}

/// A read by address and code characters.
fn read(card: &mut Card, text: &str) -> (u8, Vec<u8>) {
    sent(card, &[b"\x04", text.as_bytes(), b"\x05"].concat())
}

/// A write by address figures and by code and data characters, with its BCC.
fn write(card: &mut Card, address: &str, text: &str) -> (u8, Vec<u8>) {
    let body = [text.as_bytes(), b"\x03"].concat();
    let bcc = body.iter().fold(0, |bcc, byte| bcc ^ byte);
    sent(card, &[b"\x04", address.as_bytes(), b"\x02", &body, &[bcc]].concat())
}

/// Source 001, 6.1.1 and 6.1.4, with the read between and after.
#[test]
fn p6_and_p7() {
    let mut card = Card::new();
    let change = hex("04 31 31 02 30 30 30 39 38 37 33 03 36");
    assert_eq!(sent(&mut card, &change), (0, hex("06")));
    assert_eq!(read(&mut card, "1100"), (0, hex("02 30 30 30 03 33")));
    let activate = hex("04 31 31 02 36 37 31 03 33");
    assert_eq!(sent(&mut card, &activate), (0, hex("06")));
    assert_eq!(read(&mut card, "1100"), (0, hex("02 30 30 39 38 37 33 03 06")));
}

/// Source 001, 3.3.1 and 3.3.2.
#[test]
fn source_reads() {
    let mut card = Card::new();
    assert_eq!(sent(&mut card, &hex("04 33 31 30 33 05")), (2, vec![]));
    card.addresses.lecom = 31;
    assert_eq!(
        sent(&mut card, &hex("04 33 31 30 33 05")),
        (0, hex("02 30 33 30 03 30"))
    );
    card.addresses.lecom = 11;
    let unknown = hex("04 31 31 21 30 38 31 41 30 30 05");
    assert_eq!(sent(&mut card, &unknown), (6, hex("02 21 30 38 31 41 30 30 04")));
}

#[test]
fn run_data_999999_and_1000000() {
    let mut card = Card::new();
    assert_eq!(write(&mut card, "11", "5F999999"), (0, hex("06")));
    assert_eq!(write(&mut card, "11", "5F1000000"), (7, hex("15")));
    assert_eq!(card.buffer[0x5F], 999_999);
    assert_eq!(write(&mut card, "11", "5F-00000999999"), (0, hex("06")));
    assert_eq!(write(&mut card, "11", "5F-1000000"), (7, hex("15")));
    assert_eq!(card.buffer[0x5F], -999_999);
    assert_eq!(write(&mut card, "11", "5F0000000000001"), (3, hex("15")));
}

#[test]
fn run_probe_codes_254_and_255() {
    let mut card = Card::new();
    assert_eq!(read(&mut card, "1160"), (9, hex("15")));
    card.memory[0] = 254;
    assert_eq!(read(&mut card, "1160"), (0, hex("02 36 30 38 37 30 03 3A")));
    card.memory[3] = 0;
    assert_eq!(read(&mut card, "1163"), (0, hex("02 36 33 2D 34 30 30 03 1F")));
    assert_eq!(write(&mut card, "11", "601"), (8, hex("15")));
}

#[test]
fn codes_of_both_layouts() {
    let mut card = Card::new();
    card.operational[0x1A] = 7;
    assert_eq!(
        read(&mut card, "11!001A00"),
        (0, hex("02 21 30 30 31 41 30 30 37 03 65"))
    );
    assert_eq!(read(&mut card, "11!001A01"), (6, hex("02 21 30 30 31 41 30 31 04")));
    assert_eq!(read(&mut card, "1164"), (6, hex("02 36 34 04")));
    assert_eq!(read(&mut card, "111a"), (3, hex("15")));
    assert_eq!(read(&mut card, "11001"), (3, hex("15")));
    assert_eq!(read(&mut card, "1167"), (0, hex("02 36 37 30 03 32")));
    assert_eq!(write(&mut card, "11", "691"), (6, hex("15")));
    assert_eq!(write(&mut card, "11", "!001A0042"), (0, hex("06")));
    assert_eq!(card.buffer[0x1A], 42);
}

#[test]
fn activate_and_store() {
    let mut card = Card::new();
    card.buffer[1] = 5;
    assert_eq!(write(&mut card, "11", "670"), (0, hex("06")));
    assert_eq!(card.operational[1], 0);
    assert_eq!(write(&mut card, "11", "672"), (7, hex("15")));
    assert_eq!(write(&mut card, "11", "67-1"), (7, hex("15")));
    assert_eq!(write(&mut card, "11", "67001"), (0, hex("06")));
    assert_eq!((card.operational[1], card.saved[1]), (5, 0));
    assert_eq!(write(&mut card, "11", "681"), (0, hex("06")));
    assert_eq!(card.saved[1], 5);
}

#[test]
fn collective_addresses_send_nothing() {
    let mut card = Card::new();
    for address in ["00", "10"] {
        card.buffer[0] = 0;
        assert_eq!(write(&mut card, address, "005"), (1, vec![]));
        assert_eq!(card.buffer[0], 5);
        assert_eq!(read(&mut card, &format!("{address}00")), (1, vec![]));
        assert_eq!(read(&mut card, &format!("{address}64")), (6, vec![]));
        assert_eq!(write(&mut card, address, "00x"), (7, vec![]));
    }
    assert_eq!(write(&mut card, "20", "005"), (2, vec![]));
}

#[test]
fn order_of_refusals() {
    let mut card = Card::new();
    assert_eq!(read(&mut card, "1A00"), (3, vec![]));
    assert_eq!(sent(&mut card, &hex("04 31 31 30 05")), (3, vec![]));
    assert_eq!(sent(&mut card, &hex("05 31 31 30 30 05")), (3, vec![]));
    assert_eq!(sent(&mut card, &hex("04 31 31 02 30 30 31 03 00")), (4, hex("15")));
    assert_eq!(sent(&mut card, &hex("04 31 31 02 30 30 31 33 03")), (3, hex("15")));
    for data in ["-", "--1", "1-", "+1", " 1", "1.0"] {
        assert_eq!(write(&mut card, "11", &format!("00{data}")), (7, hex("15")));
    }
    assert_eq!(write(&mut card, "11", "00-0"), (0, hex("06")));
}
