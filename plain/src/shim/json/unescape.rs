//! The content of a string that has escapes.

/// The character of an escape whose text behind the backslash is given, and what follows it.
fn escaped(text: &str) -> Option<(char, &str)> {
    let mut characters = text.chars();
    let character = match characters.next()? {
        mark @ ('"' | '\\' | '/') => mark,
        'b' => '\u{8}',
        'f' => '\u{c}',
        'n' => '\n',
        'r' => '\r',
        't' => '\t',
        'u' => return unicode(characters.as_str()),
        _ => return None,
    };
    Some((character, characters.as_str()))
}

/// The character of four digits, or of a pair of surrogates.
fn unicode(text: &str) -> Option<(char, &str)> {
    let (unit, rest) = code_unit(text)?;
    if !(0xd800..0xdc00).contains(&unit) {
        return Some((char::from_u32(unit)?, rest));
    }
    let (low, rest) = code_unit(rest.strip_prefix("\\u")?)?;
    if !(0xdc00..0xe000).contains(&low) {
        return None;
    }
    let character = char::from_u32(0x10000 + (unit - 0xd800) * 0x400 + (low - 0xdc00))?;
    Some((character, rest))
}

fn code_unit(text: &str) -> Option<(u32, &str)> {
    let (digits, rest) = text.split_at_checked(4)?;
    let mut unit = 0;
    for digit in digits.chars() {
        unit = unit * 16 + digit.to_digit(16)?;
    }
    Some((unit, rest))
}

/// Writes the content of a string to the front of a buffer that is as long as the text. The text begins behind the opening
/// quote. Answers how long the content is, and what follows the closing quote; None where the string is faulty.
pub fn unescape<'a>(text: &'a str, buffer: &mut [u8]) -> Option<(usize, &'a str)> {
    let (mut rest, mut length) = (text, 0);
    loop {
        let plain = rest.bytes().position(ends_run)?;
        length += put(&rest[..plain], &mut buffer[length..]);
        let mark = &rest[plain..];
        if let Some(behind) = mark.strip_prefix('"') {
            return Some((length, behind));
        }
        let (character, behind) = escaped(mark.strip_prefix('\\')?)?;
        length += put(character.encode_utf8(&mut [0; 4]), &mut buffer[length..]);
        rest = behind;
    }
}

/// Whether a byte doesn't stand for itself in a string.
pub fn ends_run(byte: u8) -> bool {
    byte == b'"' || byte == b'\\' || byte < b' '
}

fn put(text: &str, buffer: &mut [u8]) -> usize {
    buffer[..text.len()].copy_from_slice(text.as_bytes());
    text.len()
}
