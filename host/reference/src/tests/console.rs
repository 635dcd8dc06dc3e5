mod masters;

use crate::console::run;

/// What a whole input writes.
fn output(input: &str) -> String {
    let mut written = vec![];
    run(&mut input.as_bytes(), &mut written).expect("memory takes all output");
    String::from_utf8(written).expect("output is ASCII")
}

/// docs/CONSOLE.md, its first example.
#[test]
fn first_example() {
    assert_eq!(output("probe 0 90\ngovernor 0\n"), "1\n0 40A00000\n");
}

#[test]
fn lines_that_write_nothing() {
    assert_eq!(output(""), "");
    assert_eq!(output("\n   \n# probe\n  "), "");
    assert_eq!(output(" # \n"), "error unknown call\n");
    assert_eq!(output("  restart  "), "1\n");
}

#[test]
fn lines_that_cannot_be_read() {
    assert_eq!(output("Probe 0 0"), "error unknown call\n");
    assert_eq!(output("restart\r"), "error unknown call\n");
    for line in [
        "probe 0",
        "probe 0 256",
        "probe 0 -0",
        "probe 0 00000000001",
        "probe 0 1 2",
        "probe\t0 1",
        "probe",
    ] {
        let error = if line.contains('\t') {
            "unknown call"
        } else {
            "expected probe CHANNEL CODE"
        };
        assert_eq!(output(line), format!("error {error}\n"));
    }
    assert_eq!(output("probe 0 0000000001"), "1\n");
    assert_eq!(output("love 1025"), "error expected love ROOM BYTES\n");
    assert_eq!(output("love 38 A"), "error expected love ROOM BYTES\n");
    assert_eq!(output("love 38 0202"), "error expected love ROOM BYTES\n");
    assert_eq!(output("step 38"), "error no request\n");
    assert_eq!(output("step 38 /"), "error expected step ROOM BYTES\n");
    let usage = "request change IA ADDRESS BYTES or request bits IA ADDRESS MASKS / STATES";
    for line in [
        "request",
        "request x 1 2",
        "request bits 1 2 00 00",
        "request bits 1 2 / / 00",
        "request change 1 2 /",
    ] {
        assert_eq!(output(line), format!("error expected {usage}\n"));
    }
}

#[test]
fn longest_line() {
    let blank = " ".repeat(32_768 - "restart".len());
    assert_eq!(output(&format!("{blank}restart\nrestart")), "1\n1\n");
    let error = "error line longer than 32768 bytes\n1\n";
    assert_eq!(output(&format!("{blank}restart \nrestart")), error);
    assert_eq!(output(&format!("{}\nrestart", "0".repeat(200_000))), error);
}

#[test]
fn dialects_with_their_room() {
    assert_eq!(output("datalink 37"), "11\n");
    assert_eq!(output("datalink 38"), "3\n");
    assert_eq!(output("lecom 38 04 31 31 30 30 05"), "0 02 30 30 30 03 33\n");
    assert_eq!(output("lucid 1024 46 00 40 00"), "9 D0 00\n");
    assert_eq!(output("save 292"), "11\n");
    let saved = output("save 293");
    let bytes = saved.trim_end().strip_prefix("0 ").expect("number 0");
    assert_eq!(output(&format!("load {bytes}\nload\nload {bytes} 00")), "1\n13\n13\n");
}

#[test]
fn a_whole_exchange() {
    let lines = "request bits 3 4112 F0 / 01\nstep 38\nstep 38 7E 23 02 10 10 f0 01 36\nstep 38\nstep 38\nstep 38\n";
    let expected =
        "ok\n0 open 7E C3 02 10 10 F0 01 D6\n0 open 7E 83\n0 open 7E E3 01 10 10 04\n1 unknown\n10 unknown\n";
    assert_eq!(output(lines), expected);
    let again = format!("{lines}request bits 3 4112 / 00\nstep 38\nrequest change 3 65535\nstep 37\nstep 38\n");
    let more = "ok\n7 open\nok\n11 open\n0 open 7E A3 00 FF FF A1\n";
    assert_eq!(output(&again), format!("{expected}{more}"));
}

#[test]
fn poke_and_peek() {
    assert_eq!(
        output("peek address\npeek love\npeek demand"),
        "3 11 50\n0 0 0 0\n65535 65535 65535 65535\n"
    );
    assert_eq!(
        output("peek parameter\npeek kept"),
        "1000000 0 1000000 0 1000000 0 1000000 0\n".repeat(2)
    );
    assert_eq!(
        output("poke memory 1 7\npeek probe\npoke probe 1 8\ngovernor 1"),
        "ok\n255 7 255 255\nok\n0 C2100000\n"
    );
    assert_eq!(output("poke saved 95 -2147483648\nrestart"), "ok\n12\n");
    assert_eq!(
        output("poke address 2 4294967295\nprobe 9 0\npeek address"),
        "ok\n12\n3 11 4294967295\n"
    );
    for line in [
        "saved 96 0",
        "saved 0 2147483648",
        "demand 0 4294967296",
        "demand 0 -1",
        "pending 35 0",
        "x 0 0",
    ] {
        assert_eq!(
            output(&format!("poke {line}")),
            "error expected poke TABLE PLACE VALUE\n"
        );
    }
    assert_eq!(output("peek x\npeek"), "error expected peek TABLE\n".repeat(2));
    assert_eq!(output("peek pending"), "0\n");
    let change = "poke pending 0 9\npoke pending 1 65535\npoke pending 2 2\npoke pending 3 5\npeek pending\nrestart";
    assert_eq!(output(change), "ok\nok\nok\nok\n9 65535 2 5 0\n12\n");
}

/// Document 02, M-100: "the number; if it is 0 or 1 then how many bytes were taken, and the frame's bytes".
#[test]
fn receivers() {
    assert_eq!(
        output("receive lecom 25 04 31\nreceive lecom 25 05 04 31"),
        "1 2\n0 1 04 31 05\n"
    );
    assert_eq!(output("receive datalink 38 7e 83 7E"), "0 2 7E 83\n");
    assert_eq!(
        output("receive love 1024 02 03\nreceive lucid 259 1 2"),
        "0 2 02 03\nerror expected receive DIALECT ROOM BYTES\n"
    );
    assert_eq!(
        output("receive lucid 259 01 02 03 00\nreceive lucid 259"),
        "0 4 01 02 03 00\n1 0\n"
    );
    for line in ["datalink 37", "lecom 24 04", "love 31", "lucid 258", "lucid 0 00"] {
        assert_eq!(output(&format!("receive {line}")), "16\n");
    }
    assert_eq!(
        output("receive love 32 02 30\nquiet love\nreceive love 32 03"),
        "1 2\n1\n1 1\n"
    );
    assert_eq!(
        output("receive love 32 02 30\nquiet lecom\nreceive love 32 03"),
        "1 2\n1\n0 1 02 30 03\n"
    );
    assert_eq!(
        output("poke part lucid 0 4\nquiet love\nreceive lecom 0"),
        "ok\n12\n12\n"
    );
    for line in [
        "receive",
        "receive lecom",
        "receive Love 32",
        "receive luminary 259",
        "receive lecom 1025",
        "receive lecom 25 0",
    ] {
        assert_eq!(output(line), "error expected receive DIALECT ROOM BYTES\n", "{line}");
    }
    for line in ["quiet", "quiet x", "quiet love love", "quiet love 0"] {
        assert_eq!(output(line), "error expected quiet DIALECT\n", "{line}");
    }
}

/// Document 02, M-100: the tables `part DIALECT`.
#[test]
fn part_frames() {
    assert_eq!(
        output("peek part love\nreceive love 32 02 4C\npeek part love\npeek part lecom"),
        "\n1 2\n2 76\n\n"
    );
    let old = "receive datalink 38 7E E3 00 00 10 F3\npeek part datalink\npoke part datalink 0 5\npeek part datalink";
    assert_eq!(output(old), "0 6 7E E3 00 00 10 F3\n\nok\n126 227 0 0 16\n");
    for (dialect, longest) in [("datalink", 38), ("lecom", 25), ("love", 32), ("lucid", 259)] {
        let last = format!("poke part {dialect} {longest} 255\npoke part {dialect} 0 65535\npeek part {dialect}");
        let shown = format!("{}255", "0 ".repeat(longest - 1));
        assert_eq!(output(&last), format!("ok\nok\n{shown}\n"));
        for line in [
            format!("{} 0", longest + 1),
            "0 65536".to_owned(),
            "1 256".to_owned(),
            "0 -1".to_owned(),
        ] {
            let poke = output(&format!("poke part {dialect} {line}"));
            assert_eq!(poke, "error expected poke TABLE PLACE VALUE\n", "{line}");
        }
    }
    for line in [
        "part 0 0",
        "part",
        "part x 0 0",
        "part love 0",
        "part love 0 0 0",
        "love love 0 0",
    ] {
        assert_eq!(
            output(&format!("poke {line}")),
            "error expected poke TABLE PLACE VALUE\n",
            "{line}"
        );
    }
    for line in ["part", "part x", "part love 0", "part part"] {
        assert_eq!(output(&format!("peek {line}")), "error expected peek TABLE\n", "{line}");
    }
}

#[test]
fn help_lists_the_calls() {
    let help = output("help");
    assert!(help.starts_with("calls: probe CHANNEL CODE; restart; governor CHANNEL; datalink ROOM BYTES; "));
    assert!(help.ends_with("; poke TABLE PLACE VALUE; peek TABLE; help\n"));
    assert!(help.contains("; lucid ROOM BYTES; receive DIALECT ROOM BYTES; quiet DIALECT; save ROOM; "));
    assert!(
        help.contains("; step ROOM BYTES; ask lecom ROOM ADDRESS read CODE; ask lecom ROOM ADDRESS write CODE VALUE; ")
    );
    assert!(help.contains("; ask lucid ROOM reset CHANNEL OPTION ADDRESS; reply lecom BYTES; reply love BYTES; "));
    assert_eq!(help.matches("; ").count(), 31);
}
