//! Lines, the words of a line and the numbers among them (desk-language.md).

use std::io::{self, BufRead};

/// The longest clear line, its line end not counted.
pub const LINE_LIMIT: usize = 4_096;

/// LF or CR. CR LF ends a line once: what stands between them is an empty line.
pub fn is_line_end(byte: u8) -> bool {
    matches!(byte, b'\n' | b'\r')
}

/// A space or a tab: what parts words.
pub fn is_blank(byte: u8) -> bool {
    matches!(byte, b' ' | b'\t')
}

/// True of an empty line and of a comment, whatever their lengths: the first byte that is no blank is missing, or is `#`.
pub fn gets_no_answer(line: &[u8]) -> bool {
    matches!(line.iter().find(|&&byte| !is_blank(byte)), None | Some(b'#'))
}

/// The words of a line.
pub fn words(line: &[u8]) -> Vec<&[u8]> {
    line.split(|&byte| is_blank(byte)).filter(|word| !word.is_empty()).collect()
}

/// The lines of a whole input without their ends, as an editor counts them: CR LF is one end.
pub fn lines(input: &[u8]) -> Vec<&[u8]> {
    let mut lines = Vec::new();
    let mut rest = input;
    while let Some(end) = rest.iter().position(|&byte| is_line_end(byte)) {
        lines.push(&rest[..end]);
        rest = rest[end..].strip_prefix(b"\r\n").unwrap_or(&rest[end + 1..]);
    }
    lines.push(rest);
    lines
}

/// Reads the next line into `line`, without its line end; false at the end of the input. Of a line that is too long only so
/// much is kept that it is still too long, and still a comment or empty if it is.
pub fn read_line(input: &mut impl BufRead, line: &mut Vec<u8>) -> io::Result<bool> {
    line.clear();
    let mut begun = false;
    loop {
        let chunk = input.fill_buf()?;
        if chunk.is_empty() {
            return Ok(begun);
        }
        begun = true;
        let end = chunk.iter().position(|&byte| is_line_end(byte));
        let part = &chunk[..end.unwrap_or(chunk.len())];
        keep(line, part);
        let used = part.len() + usize::from(end.is_some());
        input.consume(used);
        if end.is_some() {
            return Ok(true);
        }
    }
}

/// Keeps a part of a line: one byte more than a line may have. The last byte kept is a blank only as long as nothing else
/// has followed, so that it is not forgotten what a line begins with behind very many blanks.
fn keep(line: &mut Vec<u8>, part: &[u8]) {
    let room = (LINE_LIMIT + 1).saturating_sub(line.len());
    let (kept, rest) = part.split_at(part.len().min(room));
    line.extend_from_slice(kept);
    if let (Some(last), Some(&other)) = (line.last_mut(), rest.iter().find(|&&byte| !is_blank(byte))) {
        if is_blank(*last) {
            *last = other;
        }
    }
}

/// The value of a hexadecimal digit, either case.
fn digit(byte: u8) -> Option<u32> {
    char::from(byte).to_digit(16)
}

/// A hexadecimal number that fits a place of `bits` bits, 32 at most; `0x` before it or not, any number of leading zeros.
pub fn number_of_bits(word: &[u8], bits: u32) -> Option<u32> {
    let digits = match word {
        [b'0', b'x' | b'X', digits @ ..] => digits,
        digits => digits,
    };
    if digits.is_empty() {
        return None;
    }
    let mut value: u64 = 0;
    for &byte in digits {
        value = value << 4 | u64::from(digit(byte)?);
        if value >> bits != 0 {
            return None;
        }
    }
    Some(value as u32)
}

/// A number with the usual place of 32 bits.
pub fn number(word: &[u8]) -> Option<u32> {
    number_of_bits(word, 32)
}

/// One or more bytes, two digits each, no `0x`.
pub fn bytes(word: &[u8]) -> Option<Vec<u8>> {
    if word.is_empty() || !word.len().is_multiple_of(2) {
        return None;
    }
    word.chunks_exact(2).map(|pair| Some((digit(pair[0])? << 4 | digit(pair[1])?) as u8)).collect()
}
