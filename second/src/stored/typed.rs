//! Lines as people type them: every line in many ways, every line end, `help` and `quit`.

use super::unclear::{clear, REQUESTS};
use super::Stored;
use crate::desk::LINE_PROGRAMS;
use crate::line::LINE_LIMIT;
use crate::random::{random_script, Rng};

pub fn all() -> Vec<Stored> {
    let mut stored = Vec::new();
    for program in LINE_PROGRAMS {
        stored.push(Stored::script(program, "typed", &typed(program)));
        stored.push(Stored::script(program, "typed_lengths", &lengths(program)));
        stored.push(Stored::script(program, "help", &help(program)));
        for (name, end) in [("cr", "\r"), ("crlf", "\r\n"), ("lfcr", "\n\r")] {
            let text: String = talk(program).iter().map(|line| format!("{line}{end}")).collect();
            stored.push(Stored::new(program, format!("ends_{name}"), text.into_bytes()));
        }
        stored.push(Stored::new(program, "ends_mixed", ends_mixed(program)));
        stored.push(Stored::new(program, "ends_at_blocks", ends_at_blocks(program)));
        for (name, quit) in QUITS {
            stored.push(Stored::new(program, format!("quit_{name}"), quit_in(program, quit)));
        }
        for seed in 0..6 {
            let script = random_script(program, &mut Rng::new(seed), 500);
            stored.push(Stored::new(program, format!("typed_mixed_{seed}"), script.concat()));
        }
    }
    stored
}

/// Clear lines of a program.
fn lines(program: &str) -> Vec<String> {
    let mut lines: Vec<String> = clear(program).into_iter().map(str::to_string).collect();
    if program == "pod" {
        lines.extend(REQUESTS.iter().map(|request| format!("build {request}")));
    }
    lines
}

/// The line that shows what a program holds, if it holds anything.
fn look(program: &str) -> &'static str {
    match program {
        "pod" => "build nop",
        _ => "state",
    }
}

/// Lines, comments, empty lines and unclear ones.
fn talk(program: &str) -> Vec<String> {
    let mut talk = vec!["# Lines of each kind".to_string()];
    for line in lines(program) {
        talk.extend([line.clone(), String::new(), format!("# {line}"), format!("\t{line} "), format!("{line} x")]);
        talk.extend([" ".to_string(), format!(" \t# {line}"), line.to_ascii_uppercase()]);
    }
    talk
}

fn typed(program: &str) -> Vec<Vec<u8>> {
    let mut typed = Vec::new();
    for line in lines(program) {
        typed.push(format!("# {line}: case, blanks, 0x"));
        typed.extend(ways(&line));
        typed.push(look(program).to_string());
        typed.push(format!("# {line}: a space, a tab or a CR at every place"));
        for blank in [" ", "\t", "\r"] {
            typed.extend((0..=line.len()).map(|place| format!("{}{blank}{}", &line[..place], &line[place..])));
        }
        typed.push(look(program).to_string());
    }
    typed.into_iter().map(String::into_bytes).collect()
}

/// Other ways to type a line; some of them are unclear.
pub(super) fn ways(line: &str) -> Vec<String> {
    let mut ways = vec![line.to_ascii_uppercase(), line.to_ascii_lowercase(), swapped(line, 0), swapped(line, 1)];
    for blank in [" ", "\t", "  ", "\t\t", " \t ", "\x0B", "\x0C", "\u{a0}", "\0"] {
        ways.extend([
            line.replace(' ', blank),
            format!("{blank}{line}"),
            format!("{line}{blank}"),
            format!("{blank}{}{blank}", line.replace(' ', blank)),
            format!("{blank}#{line}"),
            format!("{line}{blank}#"),
        ]);
    }
    // Beyond ASCII case counts: a Kelvin sign, a long s, a dotless i, a full-width E.
    for (letter, other) in [('k', "\u{212a}"), ('s', "\u{17f}"), ('i', "\u{131}"), ('e', "\u{ff25}")] {
        ways.push(line.replace(letter, other));
    }
    let words: Vec<&str> = line.split(' ').collect();
    let with = |place: usize, word: &str| {
        let mut words = words.clone();
        words[place] = word;
        words.join(" ")
    };
    let digits = |word: &str| word.bytes().all(|byte| byte.is_ascii_hexdigit());
    for place in (1..words.len()).filter(|&place| digits(words[place])) {
        let number = words[place];
        for prefix in
            ["0x", "0X", "0x0", "0X000000000000000", "x", "X", "00x", "0x0x", "0xx", "0x-", "-0x", "+", "$", "#"]
        {
            ways.push(with(place, &format!("{prefix}{number}")));
        }
        for other in
            ["0x", "0X", "0", "0x0", "0xG", "0x1h", "0xFFFFFFFF", "0x100000000", "0X0000100000000", "0xff", "0x100"]
        {
            ways.push(with(place, other));
        }
    }
    // HEX of `bytes` too, where it is unclear.
    ways.push(line.replace(' ', " 0x"));
    ways.push(line.replace(' ', "\t0X").to_ascii_uppercase());
    ways
}

/// Every other letter in upper case.
fn swapped(line: &str, first: usize) -> String {
    line.char_indices()
        .map(
            |(place, letter)| {
                if place % 2 == first {
                    letter.to_ascii_uppercase()
                } else {
                    letter.to_ascii_lowercase()
                }
            },
        )
        .collect()
}

/// Blanks before a line, after its first word and behind it, and zeros behind `0x`, to lengths about the limit.
fn lengths(program: &str) -> Vec<Vec<u8>> {
    let mut typed = vec!["# Lines of 4,095, 4,096 and 4,097 bytes: blanks, and zeros behind 0x".to_string()];
    let (first, rest) = match program {
        "stand_in" => ("packet", "2d80"),
        "pod" => ("build", "rdreg 1"),
        _ => ("rdreg", "1"),
    };
    for length in [LINE_LIMIT - 1, LINE_LIMIT, LINE_LIMIT + 1] {
        for blank in [" ", "\t"] {
            let blanks = |head: &str, tail: &str| {
                let count = length - head.len() - tail.len();
                format!("{head}{}{tail}", blank.repeat(count))
            };
            typed.push(blanks("", &format!("{first} {rest}")));
            typed.push(blanks(first, rest));
            typed.push(blanks(&format!("{first} {rest}"), ""));
            typed.push(blanks("HELP", ""));
            typed.push(blanks("", "help"));
        }
        if let Some((head, tail)) = format!("{first} {rest}").rsplit_once(' ') {
            let zeros = "0".repeat(length - head.len() - tail.len() - 3);
            typed.push(format!("{head} 0x{zeros}{tail}"));
            typed.push(format!("{head} {zeros}0x{tail}"));
        }
    }
    typed.push("# Behind more blanks than a line may have: nothing, a comment, another line".to_string());
    for length in [LINE_LIMIT - 1, LINE_LIMIT, LINE_LIMIT + 1, 2 * LINE_LIMIT, 65_536] {
        for blank in [" ", "\t"] {
            let blanks = blank.repeat(length);
            for tail in ["", "#", "# x", "x"] {
                typed.push(format!("{blanks}{tail}"));
            }
        }
        typed.push(format!("{}quit", " ".repeat(length)));
        typed.push(format!("x{}#", " ".repeat(length)));
        typed.push(look(program).to_string());
    }
    typed.into_iter().map(String::into_bytes).collect()
}

/// `help`, and what is nearly `help` or `quit`.
fn help(program: &str) -> Vec<Vec<u8>> {
    let mut typed = vec!["# help, in all ways that are clear and some that are not".to_string(), "help".to_string()];
    typed.extend(ways("help"));
    typed.push("# help and quit with something behind them, before them or in them".to_string());
    for word in ["help", "quit"] {
        for other in
            ["0", "00000000", "0x0", "FFFFFFFF", "100000000", "x", ":", "#", "help", "quit", "make", "\0", "-h"]
        {
            typed.extend([format!("{word} {other}"), format!("{word}\t{other}\t"), format!("{word}{other}")]);
            typed.push(format!("{other} {word}"));
        }
        for place in 1..word.len() {
            typed.push(format!("{} {}", &word[..place], &word[place..]));
            typed.push(format!("{}\r{}", &word[..place], &word[place..]));
            typed.push(word[..place].to_string());
            typed.push(word[place..].to_string());
        }
    }
    for line in
        ["quits", "exit", "bye", "end", "q", "h", "?", "#quit", " #quit", "make quit", "build help", "read quit :"]
    {
        typed.push(line.to_string());
    }
    typed.push(look(program).to_string());
    typed.into_iter().map(String::into_bytes).collect()
}

/// Every line end after every other.
fn ends_mixed(program: &str) -> Vec<u8> {
    let ends = ["\n", "\r", "\r\n", "\n\r", "\r\r\n", "\n\n", " \r", "\t\r\n", "\r#\r", "\r \n"];
    let pairs = ends.iter().flat_map(|one| ends.iter().map(move |other| [*one, *other])).flatten();
    let mut text = String::from("# Every line end after every other\n");
    for (end, line) in pairs.zip(talk(program).iter().cycle()) {
        text.push_str(line);
        text.push_str(end);
    }
    text.push_str(look(program));
    text.into_bytes()
}

/// CR LF over the boundaries of blocks as large as programs read at once, and about them.
fn ends_at_blocks(program: &str) -> Vec<u8> {
    let look = look(program);
    let mut text = Vec::new();
    for block in [512, 1024, 4096, 8192, 16_384, 32_768, 65_536] {
        for (before, end) in [(1, "\r\n"), (0, "\r\n"), (1, "\r")] {
            // A comment as long as it takes.
            let least = text.len() + 2 + look.len() + before;
            let start = least.next_multiple_of(block) - before - look.len();
            text.push(b'#');
            text.resize(start - 1, b'-');
            text.push(b'\n');
            text.extend_from_slice(look.as_bytes());
            text.extend_from_slice(end.as_bytes());
        }
    }
    text
}

/// Ways to type `quit`, with the ends of lines about it.
const QUITS: [(&str, &str); 12] = [
    ("lf", "\nquit\n"),
    ("cr", "\rQUIT\r"),
    ("crlf", "\r\nQuit\r\n"),
    ("blanks", "\n \t quit\t \n"),
    ("blanks_cr", "\r\tqUIT\t\r"),
    ("after_comment", "\n#\rquit\n"),
    ("after_empty_lines", "\n\n\r\r\n \n\tquit\n"),
    ("twice", "\nquit\nquit\n"),
    ("after_help", "\nhelp\nquit\n"),
    ("after_unclear", "\nquit 0\nquit x\rquits\nquit\n"),
    ("then_a_space", "\nquit "),
    ("unended", "\nQUIT"),
];

fn quit_in(program: &str, quit: &str) -> Vec<u8> {
    let look = look(program);
    // What has no line end is the last.
    let tail = if quit.ends_with(['\n', '\r']) { format!("{look}\nhelp\n{look}") } else { String::new() };
    format!("{look}{quit}{tail}").into_bytes()
}
