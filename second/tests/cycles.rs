//! Cycles as text, as the lists of the traces and the reports of differences have them.

mod common;
use common::trace;
use second::cycles::{parse_cycles, show_cycles};
use second::random::{marked_trace, Rng};

#[test]
fn a_text_gives_its_cycles() {
    for text in ["", " ", "10", "1f F1", "20*3 10", "00*256 80 01 02 00*65537", "10*0 20"] {
        assert_eq!(parse_cycles(text), Some(trace(text)), "{text}");
    }
    for text in ["1", "100", "G0", "0x10", "10,", "*3", "10*", "10*x", "10*-1", "10*3*3", "1020*2"] {
        assert_eq!(parse_cycles(text), None, "{text}");
    }
}

#[test]
fn cycles_are_shown_as_a_text_that_gives_them() {
    assert_eq!(show_cycles(&trace("00*255 80 01 02 00*3 11*4")), "00*255 80 01 02 00 00 00 11*4");
    assert_eq!(show_cycles(&[]), "");
    let mut rng = Rng::new(4);
    for _ in 0..100 {
        let cycles = marked_trace(&mut rng);
        assert_eq!(trace(&show_cycles(&cycles)), cycles);
    }
}
