use super::output;

/// Document 02, M-102: a request of each master, and what becomes of replies to it.
#[test]
fn requests_and_replies() {
    assert_eq!(
        output("ask lecom 6 11 read 96\nreply lecom 02 36 30 2d 35 03 1D\nreply lecom 02 36 30 2d 35 03 00\nreply lecom 15"),
        "0 04 31 31 36 30 05\n1 value -5\n4\n1 refused\n"
    );
    assert_eq!(
        output("ask lecom 9 11 write 103 1\nreply lecom 06\nreply lecom\nask lecom 8 11 write 103 1\nreply lecom 06"),
        "0 04 31 31 02 36 37 31 03 33\n1 done\n3\n11\n1 done\n"
    );
    assert_eq!(
        output("ask love 17 50 write 0 -15\nreply love 02 4C 33 32 30 30 31 31 06\nreply love 02 4C 33 32 4E 30 36 06"),
        "0 02 4C 33 32 30 32 30 30 30 30 31 35 46 46 37 39 03\n1 done\n1 refused 6\n"
    );
    assert_eq!(
        output(
            "ask love 1024 50 status\nreply love 02 4C 33 32 44 30 30 30 30 30 30 30 34 35 06\nask love 11 50 read 3"
        ),
        "0 02 4C 33 32 30 30 43 35 03\n1 fault\n0 02 4C 33 32 30 31 30 35 32 42 03\n"
    );
    assert_eq!(
        output("ask lucid 4 getiogroup 9 64\nreply lucid 00 04 F6 FF 66 03\nreply lucid D0 00\nreply lucid B8 00"),
        "0 48 09 40 00\n1 value -10 870\n1 fault\n1 refused 184\n"
    );
    let commands = "ask lucid 6 setio 2 16 4660\nask lucid 8 setiogroup 9 16 258 65535\nask lucid 4 getio 3 65\n\
                    ask lucid 6 getparam 1 0 4368\nask lucid 10 setparam 0 128 4368 750000\n\
                    ask lucid 6 reset 3 129 4384\nreply lucid 00 00\nreply lucid BA 00\nask lucid 5 reset 0 1 4368";
    assert_eq!(
        output(commands),
        "0 40 02 10 02 34 12\n0 42 09 10 04 02 01 FF FF\n0 46 03 41 00\n0 A2 01 00 02 10 11\n\
         0 A0 00 80 06 10 11 B0 71 0B 00\n0 A0 03 81 02 20 11\n1 done\n1 refused 186\n11\n"
    );
}

/// Numbers outside document 01 are 7, before 11; another number of values than the mask names is 7.
#[test]
fn requests_that_cannot_be_made() {
    for line in [
        "lecom 0 1 read 5",
        "lecom 0 4294967295 read 5",
        "lecom 0 11 read 4294967295",
        "lecom 0 11 write 96 0",
        "lecom 0 11 write 5 -2147483648",
        "love 0 256 status",
        "love 0 50 read 4",
        "love 0 50 write 0 871",
        "lucid 0 getio 4 16",
        "lucid 0 getio 256 16",
        "lucid 0 getiogroup 0 16",
        "lucid 0 setio 0 64 0",
        "lucid 0 setio 0 16 4294967295",
        "lucid 0 setiogroup 3 16",
        "lucid 0 setiogroup 3 16 1 2 3 4 5 6 7 8 9",
        "lucid 0 getparam 0 1 4368",
        "lucid 0 setparam 0 1 4368 1000",
        "lucid 0 setparam 0 256 4368 1000",
        "lucid 0 reset 4 1 4368",
        "lucid 0 reset 0 128 4368",
        "lucid 0 reset 0 257 4368",
        "lucid 0 reset 0 1 4369",
        "lucid 0 reset 0 129 69904",
    ] {
        let dialect = line.split(' ').next().unwrap_or_default();
        let lines = format!("ask {line}\nreply {dialect} 15\nreply {dialect}");
        assert_eq!(output(&lines), "7\n".repeat(3), "{line}");
    }
}

/// The request last asked in a dialect stays through lines that cannot be read and requests of other dialects.
#[test]
fn a_request_is_kept_for_each_dialect() {
    assert_eq!(
        output("reply lecom\nreply love 15\nreply lucid 00 00"),
        "error no request\n".repeat(3)
    );
    assert_eq!(
        output("ask lecom 6 11 read 5\nreply love 06\nask love 9 50 status\nreply lecom 15\nreply lucid"),
        "0 04 31 31 30 35 05\nerror no request\n0 02 4C 33 32 30 30 43 35 03\n1 refused\nerror no request\n"
    );
    let kept = output("ask lucid 8 setiogroup 3 16 1 2\nask lucid 8 setiogroup 3 16 1 x\nask lucid\nreply lucid 00 00");
    assert!(kept.starts_with("0 42 03 10 04 01 00 02 00\nerror expected ask lecom ROOM ADDRESS read CODE or "));
    assert!(kept.ends_with("\n1 done\n"));
}

#[test]
fn lines_that_cannot_be_read() {
    for line in [
        "",
        "lecom",
        "datalink 38 3 read 5",
        "Lecom 6 11 read 5",
        "lecom 1025 11 read 5",
        "lecom 6 -1 read 5",
        "lecom 6 11 read",
        "lecom 6 11 read -1",
        "lecom 6 11 read 5 0",
        "lecom 6 11 READ 5",
        "lecom 6 11 write 5",
        "lecom 6 11 write 5 2147483648",
        "lecom 6 11 write 5 1 1",
        "lecom 6 4294967296 read 5",
        "love 9 50",
        "love 9 50 status 0",
        "love 9 50 read",
        "love 9 50 read -1",
        "love 9 50 read 0 0",
        "love 9 50 write 0",
        "love 9 50 write 0 --1",
        "lucid 4 getio 0",
        "lucid 4 getio 0 16 0",
        "lucid 4 getio -1 16",
        "lucid 4 getiogroup 1 16 0",
        "lucid 6 setio 0 16",
        "lucid 6 setio 0 16 -1",
        "lucid 6 setio 0 16 1 2",
        "lucid 6 setiogroup 1 16 -1",
        "lucid 6 setiogroup 1 16 00000000001",
        "lucid 6 getparam 0 0",
        "lucid 6 getparam 0 0 4368 0",
        "lucid 10 setparam 0 0 4368",
        "lucid 10 setparam 0 0 4368 1000 0",
        "lucid 6 reset 0",
        "lucid 6 reset 0 1",
        "lucid 6 reset 0 1 -4368",
        "lucid 6 reset 0 1 4368 0",
    ] {
        let error = output(&format!("ask {line}\nask {line}"));
        assert!(error.starts_with("error expected ask lecom ROOM"), "{line}");
        assert_eq!(error.matches('\n').count(), 2, "{line}");
    }
    let usage = "reply lecom BYTES or reply love BYTES or reply lucid BYTES";
    for line in [
        "",
        "datalink 7E",
        "Love 02",
        "lecom 1",
        "love 0202",
        "lucid /",
        "luminary",
    ] {
        assert_eq!(
            output(&format!("reply {line}")),
            format!("error expected {usage}\n"),
            "{line}"
        );
    }
}
