//! The readings of the open points: the pod's half, and both halves joined.

mod common;
use common::Desk;

fn pod(line: &str) -> String {
    Desk::new("pod").say(line)
}

#[test]
fn every_request_is_built() {
    for (request, words) in [
        ("rdreg 0", "02180"),
        ("rdreg F", "0218F"),
        ("wdreg 8 12345678", "02088 01234 05678"),
        ("read.b 12345678", "01900 01234 05678"),
        ("read.w 1", "01940 00000 00001"),
        ("read.l FFFFFFFF", "01980 0FFFF 0FFFF"),
        ("write.b 10 FF", "01800 00000 00010 000FF"),
        ("write.w 10 FFFF", "01840 00000 00010 0FFFF"),
        ("write.l 10 12345678", "01880 00000 00010 01234 05678"),
        ("dump.b", "01D00"),
        ("dump.w", "01D40"),
        ("dump.l", "01D80"),
        ("fill.b FF", "01C00 000FF"),
        ("fill.w FFFF", "01C40 0FFFF"),
        ("fill.l 12345678", "01C80 01234 05678"),
        ("go", "00C00"),
        ("nop", "00000"),
        ("sync_pc", "00001"),
        ("rcreg FFF", "02980 00000 00FFF"),
        ("wcreg 801 12345678", "02880 00000 00801 01234 05678"),
        ("rdmreg 1F", "02D9F"),
        ("wdmreg 7 12345678", "02C87 01234 05678"),
    ] {
        assert_eq!(pod(&format!("build {request}")), format!("words {words}"));
    }
}

#[test]
fn fields_out_of_range() {
    for request in [
        "rdreg 10", "wdreg 10 0", "write.b 0 100", "write.w 0 10000", "fill.b 100", "fill.w 10000", "rcreg 1000",
        "wcreg 1000 0", "rdmreg 20", "wdmreg 20 0", "rdreg FFFFFFFF",
    ] {
        assert_eq!(pod(&format!("build {request}")), "refused 13 at 0", "{request}");
        assert_eq!(pod(&format!("read {request} : FFFFFFFF")), "refused 13 at 0", "{request}");
    }
}

#[test]
fn replies_are_read() {
    for (line, answer) in [
        ("read go :", "not-yet used 0"),
        ("read go : 10000 10000", "not-yet used 2"),
        ("read go : 10000 FFFF 20000", "complete used 2"),
        ("read go : 10001", "bus-error used 1"),
        ("read go : 1FFFF", "illegal used 1"),
        ("read go : 0", "refused 14 at 0"),
        ("read go : FFFE", "refused 14 at 0"),
        ("read go : 10002", "refused 14 at 0"),
        ("read go : 1FFFE", "refused 14 at 0"),
        ("read go : 20000", "refused 1 at 0"),
        ("read go : 10000 FFFFFFFF", "refused 1 at 0"),
        ("read read.b 0 : FF", "value 000000FF used 1"),
        ("read read.b 0 : 100", "refused 14 at 0"),
        ("read read.b 0 : FFFF", "refused 14 at 0"),
        ("read read.w 0 : FFFF", "value 0000FFFF used 1"),
        ("read read.l 0 : FFFF FFFF", "value FFFFFFFF used 2"),
        ("read read.l 0 : 10000 1234 5678 20000", "value 12345678 used 3"),
        ("read read.l 0 : 1234", "not-yet used 1"),
        ("read read.l 0 : 1234 10000", "refused 14 at 0"),
        ("read read.l 0 : 1234 10001", "refused 14 at 0"),
        ("read read.l 0 : 1234 1FFFF", "refused 14 at 0"),
        ("read read.l 0 : 1234 20000", "refused 1 at 0"),
        ("read dump.l : 10000 10000 1 2", "value 00010002 used 4"),
        ("read rdmreg 1 : 1FFFF", "illegal used 1"),
        ("read rdreg 0 : 0 0", "value 00000000 used 2"),
        ("read rcreg 3 : 10000 10001", "bus-error used 2"),
    ] {
        assert_eq!(pod(line), answer, "{line}");
    }
}

#[test]
fn talk_counts_its_packets() {
    for w in 0..16 {
        let mut desk = Desk::talk(w, 16);
        // Command, operands, waits, result words.
        assert_eq!(desk.say("read.b 4"), format!("value 00000004 packets {}", 3 + w + 1));
        assert_eq!(desk.say("dump.l"), format!("value 04050607 packets {}", 1 + w + 2));
        assert_eq!(desk.say("write.l 0 11223344"), format!("complete packets {}", 5 + w + 1));
        assert_eq!(desk.say("fill.w 5566"), format!("complete packets {}", 2 + w + 1));
        assert_eq!(desk.say("read.w 10"), format!("bus-error packets {}", 3 + w + 1));
        assert_eq!(desk.say("dump.b"), "illegal packets 2");
        assert_eq!(desk.say("rdreg 0"), "value 00000000 packets 3");
        assert_eq!(desk.say("wdreg 0 1"), "complete packets 4");
        assert_eq!(desk.say("wcreg 801 1"), format!("complete packets {}", 5 + w + 1));
        assert_eq!(desk.say("go"), "complete packets 2");
    }
}

#[test]
fn talk_brings_the_port_to_rest_first() {
    let mut desk = Desk::talk(3, 16);
    desk.say("go");
    // WDREG is illegal while running; its upper word begins a READ.
    assert_eq!(desk.say("wdreg 0 19800000"), "illegal packets 2");
    assert_eq!(desk.state("phase"), "operands:2");
    // Two operands, three waits, the upper result word; then the request's own two.
    assert_eq!(desk.say("nop"), "complete packets 8");
    // The stray word may be a whole command.
    desk.say("breakpoint");
    assert_eq!(desk.say("fill.w C00"), "illegal packets 2");
    assert_eq!(desk.state("halted"), "0");
}

#[test]
fn talk_judges_13_before_3_and_sends_nothing() {
    let mut desk = Desk::talk(0, 0);
    desk.say("memory 10001");
    let before = desk.say("state");
    assert_eq!(desk.say("rdreg 10"), "refused 13 at 0");
    assert_eq!(desk.say("rdreg 0"), "refused 3 at 0");
    assert_eq!(desk.say("state"), before);
}
