use crate::card::{governor, restart, set_probe, Card, Governor, Hundredths, Tenths, PENDING_BITS, PENDING_CHANGE};
use crate::numbers::{Number, Reply};
use crate::{datalink, image, lecom, love, lucid};

#[test]
fn probe_codes_254_and_255() {
    let mut card = Card::new();
    assert_eq!(set_probe(&mut card, 0, 254), Number::Silent);
    assert_eq!(governor(&card, 0), Governor::Degrees(87.0));
    assert_eq!(set_probe(&mut card, 0, 255), Number::Silent);
    assert_eq!(governor(&card, 0), Governor::Fault);
    assert_eq!(set_probe(&mut card, 4, 0), Number::Unknown);
    assert_eq!(governor(&card, 4), Governor::Refused(Number::Unknown));
}

#[test]
fn degrees_are_half_the_code_less_40() {
    let mut card = Card::new();
    for code in 0..=254_u8 {
        set_probe(&mut card, 3, code);
        let Governor::Degrees(degrees) = governor(&card, 3) else {
            panic!("code {code} is a temperature");
        };
        assert_eq!(f64::from(degrees) * 2.0, f64::from(code) - 80.0);
    }
}

/// The temperatures of codes 0 to 254 and no others; -1 is none of them.
#[test]
fn temperatures_that_a_code_gives() {
    let codes: Vec<i32> = (0..=254).map(|code| 5 * code - 400).collect();
    for tenths in (-2_000..2_000).chain([i32::MIN, i32::MAX, 65_536]) {
        assert_eq!(Tenths::of_a_code(tenths).is_some(), codes.contains(&tenths), "{tenths}");
    }
    for hundredths in (-20_000..20_000).chain([i32::MIN, i32::MAX]) {
        let is_code = hundredths % 10 == 0 && codes.contains(&(hundredths / 10));
        assert_eq!(Hundredths::of_a_code(hundredths).is_some(), is_code, "{hundredths}");
    }
    assert_eq!(Tenths::of_a_code(-10), Some(Tenths(-10)));
    assert_eq!(Hundredths::of_a_code(8_700), Some(Hundredths(8_700)));
}

#[test]
fn restart_goes_back_to_what_is_saved() {
    let mut card = Card::new();
    card.buffer[5] = 1;
    card.operational[5] = 2;
    card.saved[5] = 3;
    card.parameter[0][2] = 5_000;
    card.kept[0][2] = 6_000;
    card.demand[1] = 7;
    card.love[1] = 8;
    card.memory[0] = 9;
    card.memory[0x10] = 10;
    card.ports.pending.kind = PENDING_CHANGE;
    card.ports.pending.address = 0x1010;
    assert_eq!(restart(&mut card), Number::Silent);
    assert_eq!((card.buffer[5], card.operational[5], card.saved[5]), (3, 3, 3));
    assert_eq!((card.parameter[0][2], card.kept[0][2]), (6_000, 6_000));
    assert_eq!(card.demand, [65_535; 4]);
    assert_eq!((card.love[1], card.memory[0], card.memory[0x10]), (8, 255, 10));
    assert_eq!(card.ports.pending.kind, 0);
}

/// A card changed in one place.
fn changed(change: impl Fn(&mut Card)) -> Card {
    let mut card = Card::new();
    change(&mut card);
    card
}

fn pending(kind: u8, address: u16, num: u8) -> Card {
    changed(|card| {
        card.ports.pending.kind = kind;
        card.ports.pending.address = address;
        card.ports.pending.num = num;
    })
}

#[test]
fn fitness_at_the_edges() {
    for love in [0x1, 0xFF, 0x101, 0x3FF] {
        assert!(changed(|card| card.addresses.love = love).is_fit());
    }
    for love in [0, 0x100, 0x200, 0x300, 0x400, 0x401, u32::MAX] {
        assert!(!changed(|card| card.addresses.love = love).is_fit());
    }
    for lecom in 0..=110 {
        let fit = (11..=99).contains(&lecom) && lecom % 10 != 0;
        assert_eq!(changed(|card| card.addresses.lecom = lecom).is_fit(), fit);
    }
    assert!(changed(|card| card.addresses.datalink = 31).is_fit());
    assert!(!changed(|card| card.addresses.datalink = 32).is_fit());
    for (value, fit) in [(999_999, true), (1_000_000, false), (i32::MAX, false)] {
        for value in [value, -value] {
            assert_eq!(changed(|card| card.buffer[0] = value).is_fit(), fit);
            assert_eq!(changed(|card| card.operational[95] = value).is_fit(), fit);
            assert_eq!(changed(|card| card.saved[48] = value).is_fit(), fit);
        }
    }
    assert!(!changed(|card| card.saved[1] = i32::MIN).is_fit());
    for (value, fit) in [(-401, false), (-400, true), (870, true), (871, false)] {
        assert_eq!(changed(|card| card.love[3] = value).is_fit(), fit);
    }
    for (value, fit) in [(65_535, true), (65_536, false), (u32::MAX, false)] {
        assert_eq!(changed(|card| card.demand[3] = value).is_fit(), fit);
        assert_eq!(changed(|card| card.parameter[1][3] = value).is_fit(), fit);
        assert_eq!(changed(|card| card.kept[1][3] = value).is_fit(), fit);
    }
    let edges = [
        (999, false),
        (1_000, true),
        (60_000_000, true),
        (60_000_001, false),
        (1 << 31, false),
    ];
    for (value, fit) in edges {
        assert_eq!(changed(|card| card.parameter[0][0] = value).is_fit(), fit);
        assert_eq!(changed(|card| card.kept[0][3] = value).is_fit(), fit);
    }
}

#[test]
fn fitness_of_the_pending_change() {
    assert!(pending(0, 0, 255).is_fit());
    assert!(!pending(3, 0x1010, 0).is_fit());
    for kind in [PENDING_CHANGE, PENDING_BITS] {
        assert!(pending(kind, 0x1000, 0).is_fit());
        assert!(pending(kind, 0x2000, 0).is_fit());
        assert!(pending(kind, 0x1010, 32).is_fit());
        assert!(!pending(kind, 0x1010, 34).is_fit());
        assert!(!pending(kind, 0x100F, 2).is_fit());
        assert!(!pending(kind, 0x2001, 0).is_fit());
        assert!(!pending(kind, 0xFFF, 0).is_fit());
    }
    assert!(pending(PENDING_CHANGE, 0x1FFF, 1).is_fit());
    assert!(!pending(PENDING_CHANGE, 0x1FFF, 2).is_fit());
    assert!(pending(PENDING_BITS, 0x1FFF, 2).is_fit());
    assert!(!pending(PENDING_BITS, 0x1FF0, 3).is_fit());
}

#[test]
fn an_unfit_card_is_12_before_anything_else() {
    let unfit = changed(|card| card.saved[7] = 1_000_000);
    let mut card = unfit.clone();
    for entry in [datalink::datalink, lecom::lecom, love::love, lucid::lucid] {
        assert_eq!(entry(&mut card, &[], &mut []), Reply::silent(Number::Unfit));
    }
    assert_eq!(set_probe(&mut card, 9, 0), Number::Unfit);
    assert_eq!(restart(&mut card), Number::Unfit);
    assert_eq!(governor(&card, 9), Governor::Refused(Number::Unfit));
    assert_eq!(image::save(&card, &mut []), Reply::silent(Number::Unfit));
    assert_eq!(image::load(&mut card, &[]), Number::Unfit);
    assert_eq!(card, unfit);
}

#[test]
fn a_short_buffer_is_11_before_the_dialects_order() {
    let mut card = Card::new();
    for entry in [datalink::datalink, lecom::lecom, love::love, lucid::lucid] {
        assert_eq!(entry(&mut card, &[], &mut [0; 37]), Reply::silent(Number::ShortBuffer));
        assert_eq!(entry(&mut card, &[], &mut [0; 38]), Reply::silent(Number::Form));
    }
    assert_eq!(image::save(&card, &mut [0; 292]), Reply::silent(Number::ShortBuffer));
}
