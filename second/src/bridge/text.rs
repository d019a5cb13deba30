//! Bytes in a scene's lines: `\n`, `\r`, `\t`, `\\` and `\x1B`; in an answer also `{X}` and `{x}` for the reply.

/// A piece of an answer.
#[derive(Clone, PartialEq, Eq, Debug)]
pub enum Piece {
    Byte(u8),
    /// The reply as `stand_in` writes it: five digits.
    Digits,
    /// The reply without leading zeros, in lower case.
    FewDigits,
}

/// The pieces of an answer's text; none if a backslash begins nothing.
pub fn pieces(text: &[u8]) -> Option<Vec<Piece>> {
    let mut pieces = Vec::new();
    let mut rest = text;
    while !rest.is_empty() {
        let (piece, length) = match rest {
            [b'{', b'X', b'}', ..] => (Piece::Digits, 3),
            [b'{', b'x', b'}', ..] => (Piece::FewDigits, 3),
            [b'\\', b'n', ..] => (Piece::Byte(b'\n'), 2),
            [b'\\', b'r', ..] => (Piece::Byte(b'\r'), 2),
            [b'\\', b't', ..] => (Piece::Byte(b'\t'), 2),
            [b'\\', b'\\', ..] => (Piece::Byte(b'\\'), 2),
            [b'\\', b'x', high, low, ..] => match crate::line::bytes(&[*high, *low])?[..] {
                [byte] => (Piece::Byte(byte), 4),
                _ => return None,
            },
            [b'\\', ..] => return None,
            [byte, ..] => (Piece::Byte(*byte), 1),
            [] => return None,
        };
        pieces.push(piece);
        rest = &rest[length..];
    }
    Some(pieces)
}

/// The bytes of a text without `{X}` and `{x}`.
pub fn bytes(text: &[u8]) -> Option<Vec<u8>> {
    let bytes = |piece| match piece {
        Piece::Byte(byte) => Some(byte),
        Piece::Digits | Piece::FewDigits => None,
    };
    pieces(text)?.into_iter().map(bytes).collect()
}

/// The text of some bytes: what is not printed, and the backslash, by a backslash; a space at either end too.
pub fn escape(bytes: &[u8]) -> String {
    let mut text = String::new();
    for (place, &byte) in bytes.iter().enumerate() {
        let at_end = place == 0 || place + 1 == bytes.len();
        match byte {
            b'\n' => text.push_str("\\n"),
            b'\r' => text.push_str("\\r"),
            b'\t' => text.push_str("\\t"),
            b'\\' => text.push_str("\\\\"),
            b' ' if at_end => text.push_str("\\x20"),
            b' '..=b'~' => text.push(char::from(byte)),
            _ => text.push_str(&format!("\\x{byte:02X}")),
        }
    }
    text
}
