//! Random lines as people type them: what they say stays the same.

use second::desk::{line_program, output_of, LINE_PROGRAMS, UNCLEAR};
use second::random::{plain, pod_script, random_script, stand_in_script, talk_script, typed_script, Rng};
use second::script::to_bytes;

/// The lines of a random script without their ends.
fn lines_for(program: &str, rng: &mut Rng) -> Vec<Vec<u8>> {
    match program {
        "stand_in" => stand_in_script(rng, 600),
        "pod" => pod_script(rng, 600),
        _ => talk_script(rng, 600),
    }
}

#[test]
fn a_typed_script_says_the_same() {
    for program in LINE_PROGRAMS {
        for seed in 0..60 {
            let rng = &mut Rng::new(seed);
            let lines = lines_for(program, rng);
            let answers = output_of(program, &to_bytes(&lines, true)).unwrap();
            let typed = typed_script(rng, lines);
            assert!(output_of(program, &typed.concat()).unwrap() == answers, "{program}, seed {seed}");
        }
    }
}

#[test]
fn a_clear_line_says_the_same_when_it_is_typed_plainly() {
    for program in LINE_PROGRAMS {
        let rng = &mut Rng::new(5307);
        let (mut one, mut other) = (line_program(program).unwrap(), line_program(program).unwrap());
        let lines = lines_for(program, rng);
        for line in typed_script(rng, lines) {
            let line = line.trim_ascii_end();
            let answer = one.answer(line);
            if !line.contains(&b'\r') && answer.as_deref() != Some(UNCLEAR) {
                let plain = plain(line);
                assert_eq!(other.answer(plain.trim_ascii_end()), answer, "{}", line.escape_ascii());
            }
        }
    }
}

/// How many of these scripts have something.
fn count(scripts: &[Vec<u8>], has: impl Fn(&[u8]) -> bool) -> usize {
    scripts.iter().filter(|script| has(script)).count()
}

#[test]
fn random_scripts_have_every_way_of_typing() {
    let contains = |script: &[u8], part: &[u8]| script.windows(part.len()).any(|window| window == part);
    for program in LINE_PROGRAMS {
        let scripts: Vec<Vec<u8>> =
            (0..60).map(|seed| random_script(program, &mut Rng::new(seed), 600).concat()).collect();
        let parts: [&[u8]; 10] = [b"\r\n", b"\n\n", b"\t", b"  ", b" 0x", b" 0X", b"# ", b" #", b"HELP", b"QUIT"];
        for part in parts {
            let found = count(&scripts, |script| contains(script, part));
            assert!(found > 0, "{program}: {} in {found} of 60", part.escape_ascii());
        }
        let bytes = |script: &[u8], end: u8| script.iter().filter(|&&byte| byte == end).count();
        let only_cr = count(&scripts, |script| !script.contains(&b'\n'));
        let mostly_lf = count(&scripts, |script| bytes(script, b'\n') > 20 * bytes(script, b'\r'));
        let unended = count(&scripts, |script| !script.ends_with(b"\n") && !script.ends_with(b"\r"));
        let quit = count(&scripts, |script| output_of(program, script).unwrap().ends_with(b"bye\n"));
        for found in [only_cr, mostly_lf, unended, quit] {
            assert!(found > 0, "{program}: {only_cr} {mostly_lf} {unended} {quit}");
        }
    }
}
