//! Recorded cycles as text: two hexadecimal digits each, and `20*3` for `20 20 20`.

/// The cycles that a text gives; none if it is no such text.
pub fn parse_cycles(text: &str) -> Option<Vec<u8>> {
    let mut trace = Vec::new();
    for word in text.split_whitespace() {
        let (digits, count) = word.split_once('*').unwrap_or((word, "1"));
        let [byte] = crate::line::bytes(digits.as_bytes())?[..] else {
            return None;
        };
        trace.resize(trace.len() + count.parse::<usize>().ok()?, byte);
    }
    Some(trace)
}

/// The text of some cycles, four or more of the same as one word.
pub fn show_cycles(trace: &[u8]) -> String {
    let words = trace.chunk_by(|one, next| one == next).map(|same| match same.len() {
        count @ 4.. => format!("{:02X}*{count}", same[0]),
        count => vec![format!("{:02X}", same[0]); count].join(" "),
    });
    words.collect::<Vec<_>>().join(" ")
}
