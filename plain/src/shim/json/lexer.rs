//! Lexemes: brackets, commas and colons, strings, and words, which are numbers and the three literals.
use super::reader::Token;
use super::unescape::{ends_run, unescape};
use std::mem;

/// A text from a lexeme on.
pub struct Lexer<'a> {
    text: &'a str,
    /// Where the next lexeme begins, or the text's length.
    at: usize,
    /// Room for the strings with escapes that are left: as long as the text, where it has a backslash.
    room: &'a mut [u8],
}

impl<'a> Lexer<'a> {
    pub fn new(text: &'a str, room: &'a mut [u8]) -> Lexer<'a> {
        let mut lexer = Lexer { text, at: 0, room };
        lexer.go_to(0);
        lexer
    }

    pub fn offset(&self) -> usize {
        self.at
    }

    /// The first byte of the next lexeme.
    pub fn peek(&self) -> Option<u8> {
        self.text.as_bytes().get(self.at).copied()
    }

    /// Goes past a lexeme of one byte.
    pub fn skip(&mut self) {
        self.go_to(self.at + 1);
    }

    /// Goes to the first lexeme from a place on.
    fn go_to(&mut self, place: usize) {
        let rest = &self.text.as_bytes()[place..];
        self.at = place + rest.iter().take_while(|byte| is_space(**byte)).count();
    }

    /// The number or the literal that comes next; where there is none it stays.
    pub fn word(&mut self) -> Option<Token<'a>> {
        let rest = &self.text[self.at..];
        let end = rest.bytes().position(ends_word).unwrap_or(rest.len());
        let token = match &rest[..end] {
            "true" => Token::Bool(true),
            "false" => Token::Bool(false),
            "null" => Token::Null,
            number if is_number(number) => Token::Number(number),
            _ => return None,
        };
        self.go_to(self.at + end);
        Some(token)
    }

    /// The string that comes next; where it is faulty it stays.
    pub fn string(&mut self) -> Option<&'a str> {
        let start = self.at + 1;
        let rest = &self.text[start..];
        let end = rest.bytes().position(ends_run)?;
        match rest.as_bytes()[end] {
            b'"' => {
                self.go_to(start + end + 1);
                Some(&rest[..end])
            }
            b'\\' => self.escaped_string(rest),
            _ => None,
        }
    }

    fn escaped_string(&mut self, rest: &'a str) -> Option<&'a str> {
        let (length, behind) = unescape(rest, self.room)?;
        let (content, room) = mem::take(&mut self.room).split_at_mut(length);
        self.room = room;
        self.go_to(self.text.len() - behind.len());
        std::str::from_utf8(content).ok()
    }
}

fn is_space(byte: u8) -> bool {
    matches!(byte, b' ' | b'\t' | b'\n' | b'\r')
}

fn ends_word(byte: u8) -> bool {
    is_space(byte) || matches!(byte, b'{' | b'}' | b'[' | b']' | b':' | b',')
}

/// Whether a whole word is a number.
fn is_number(word: &str) -> bool {
    let number = word.strip_prefix('-').unwrap_or(word);
    let whole = number.strip_prefix('0').or_else(|| past_digits(number));
    whole.and_then(past_fraction).and_then(past_exponent) == Some("")
}

/// What follows some digits, where there is one at least.
fn past_digits(text: &str) -> Option<&str> {
    let rest = text.trim_start_matches(|character: char| character.is_ascii_digit());
    (rest.len() < text.len()).then_some(rest)
}

fn past_fraction(text: &str) -> Option<&str> {
    match text.strip_prefix('.') {
        Some(digits) => past_digits(digits),
        None => Some(text),
    }
}

fn past_exponent(text: &str) -> Option<&str> {
    match text.strip_prefix(['e', 'E']) {
        Some(power) => past_digits(power.strip_prefix(['+', '-']).unwrap_or(power)),
        None => Some(text),
    }
}
