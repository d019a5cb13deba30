//! The morning's check: its page where all is good, and where something is not.

use second::desk::morning::{run_checks, write_page, CameOut};
use std::process::Command;

const GOOD_PAGE: &str = "\
P1 good: READ of the longword at 4, with W 1
    reply 0FFFF, reply 10000, reply 10000, reply 10000, reply 00405, reply 00607
P2 good: then DUMP of a byte
    reply 0FFFF, reply 10000, reply 00008
P3 good: CSR of a fresh board, read twice
    value 01100000 packets 3, value 00100000 packets 3
P4 good: PC breakpoint at 1000 under mask F: at 1010, at 100E, then CSR
    event level 0 halted 0 interrupt 0 pc none, event level 1 halted 1 interrupt 0 pc none, value 24100000 packets 3
P5 good: two levels, the same event twice, CSR after each
    event level 1 halted 0 interrupt 0 pc none, value 50100000 packets 3, event level 2 halted 0 interrupt 0 pc none, value 60100000 packets 3
P6 good: byte READ at 0 without memory
    reply 0FFFF, reply 10000, reply 10000, reply 10001
P7 good: FILL after READ
    reply 0FFFF, reply 10000, reply 10000, reply 00000, reply 1FFFF
P8 good: the word 19C0
    reply 0FFFF, reply 1FFFF
P9 good: the trace 10 50 90 04 03 02 11 F0 F0
    trace cycles=9 items=5, 0 1 0, 1 5 0, 6 9 4660, 6 1 0, 7 15 0

 ####   ###    ###   ####
#      #   #  #   #  #   #
#  ##  #   #  #   #  #   #
#   #  #   #  #   #  #   #
 ####   ###    ###   ####

ALL 9 GOOD
";

/// The end of a page with something bad, the number of the bad ones left out.
const BAD_END: &str = "

####    ###   ####
#   #  #   #  #   #
####   #####  #   #
#   #  #   #  #   #
####   #   #  ####

";

/// Whether all is good, and the page.
fn page(came_out: &CameOut) -> (bool, String) {
    let mut output = Vec::new();
    let good = write_page(came_out, &mut output).unwrap();
    (good, String::from_utf8(output).unwrap())
}

#[test]
fn all_is_good_in_the_morning() {
    let output = Command::new(env!("CARGO_BIN_EXE_second")).arg("morning").output().unwrap();
    assert_eq!(String::from_utf8(output.stdout).unwrap(), GOOD_PAGE);
    assert_eq!(output.status.code(), Some(0));
}

#[test]
fn a_wrong_answer_is_bad_and_shown_with_what_is_due() {
    let mut came_out = run_checks();
    came_out[6] = "reply 0FFFF, reply 10000".to_string();
    let (good, page) = page(&came_out);
    assert!(!good);
    let (checks, _) = GOOD_PAGE.split_once("\n\n").unwrap();
    let checks = checks.replace(
        "P7 good: FILL after READ\n    reply 0FFFF, reply 10000, reply 10000, reply 00000, reply 1FFFF\n",
        "P7 BAD: FILL after READ\n    reply 0FFFF, reply 10000\n    due: reply 0FFFF, reply 10000, reply 10000, reply 00000, reply 1FFFF\n",
    );
    assert_eq!(page, format!("{checks}{BAD_END}1 BAD OF 9: HAND OUT NO POD\n"));
}

#[test]
fn each_check_can_be_bad() {
    for bad in 0..9 {
        let mut came_out = run_checks();
        came_out[bad].push_str(", unclear");
        let (good, page) = page(&came_out);
        assert!(!good);
        let verdicts: Vec<&str> = page.lines().filter_map(|line| line.strip_prefix('P')?.split(' ').nth(1)).collect();
        let mut due = ["good:"; 9];
        due[bad] = "BAD:";
        assert_eq!(verdicts, due);
        assert!(page.ends_with("\n1 BAD OF 9: HAND OUT NO POD\n"), "{page}");
    }
}

#[test]
fn the_bad_ones_are_counted() {
    let (good, page) = page(&CameOut::default());
    assert!(!good);
    assert_eq!(page.lines().filter(|line| line.starts_with("    due: ")).count(), 9);
    assert!(page.ends_with(&format!("{BAD_END}9 BAD OF 9: HAND OUT NO POD\n")), "{page}");
}
