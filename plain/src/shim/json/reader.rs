//! Tokens: lexemes with the rules for commas and colons. Nesting is the caller's.
use super::Invalid;
use super::lexer::Lexer;
use crate::shim::AllocError;

/// What a reader hands out.
#[derive(Clone, Copy, Debug)]
pub enum Token<'a> {
    BeginObject,
    EndObject,
    BeginArray,
    EndArray,
    Key(&'a str),
    String(&'a str),
    /// The number's text.
    Number(&'a str),
    Bool(bool),
    Null,
    /// The text is no JSON from here on, and no token follows.
    Bad,
}

/// Room for strings that have escapes.
pub struct Scratch {
    room: Vec<u8>,
}

impl Scratch {
    pub fn new() -> Scratch {
        Scratch { room: Vec::new() }
    }

    /// As much room as the strings of a text may need.
    fn lend(&mut self, text: &str) -> Result<&mut [u8], AllocError> {
        let length = if text.contains('\\') { text.len() } else { 0 };
        self.room.clear();
        self.room.try_reserve_exact(length)?;
        self.room.resize(length, 0);
        Ok(&mut self.room)
    }
}

/// Where a reader stands.
#[derive(Clone, Copy, PartialEq, Eq)]
enum Place {
    /// At the beginning, behind an opening bracket or behind a key.
    Fresh,
    AfterValue,
    AfterComma,
    /// Behind a fault.
    Failed,
}

impl Place {
    fn may_begin(self) -> bool {
        matches!(self, Place::Fresh | Place::AfterComma)
    }

    fn may_close(self) -> bool {
        matches!(self, Place::Fresh | Place::AfterValue)
    }
}

/// Hands out the tokens of a text.
pub struct Reader<'a> {
    lexer: Lexer<'a>,
    place: Place,
}

impl<'a> Reader<'a> {
    pub fn new(text: &'a str, scratch: &'a mut Scratch) -> Result<Reader<'a>, AllocError> {
        let room = scratch.lend(text)?;
        Ok(Reader { lexer: Lexer::new(text, room), place: Place::Fresh })
    }

    /// Where in the text the next token begins; a bad one where it does.
    pub fn offset(&self) -> usize {
        self.lexer.offset()
    }

    pub fn next(&mut self) -> Option<Token<'a>> {
        let Some(first) = self.lexer.peek() else {
            return if self.place.may_close() { None } else { self.refuse() };
        };
        let closes = matches!(first, b'}' | b']');
        let is_allowed = if closes { self.place.may_close() } else { self.place.may_begin() };
        if !is_allowed {
            return self.refuse();
        }
        match self.take(first) {
            Some(token) => Some(token),
            None => self.refuse(),
        }
    }

    /// A key, or None at the end of an object.
    pub fn next_key(&mut self) -> Result<Option<&'a str>, Invalid> {
        match self.next() {
            Some(Token::Key(key)) => Ok(Some(key)),
            Some(Token::EndObject) => Ok(None),
            Some(_) => self.stop(),
            None => Err(Invalid),
        }
    }

    /// Takes the bracket that closes a list, where it comes next.
    pub fn take_end_array(&mut self) -> bool {
        if self.lexer.peek() != Some(b']') || !self.place.may_close() {
            return false;
        }
        self.lexer.skip();
        self.end_value();
        true
    }

    /// Goes past a value, in which lists and objects may nest so deep.
    pub fn skip_value(&mut self, depth: usize) -> Result<(), Invalid> {
        match self.next().ok_or(Invalid)? {
            Token::String(_) | Token::Number(_) | Token::Bool(_) | Token::Null => Ok(()),
            Token::BeginArray if depth > 0 => {
                while !self.take_end_array() {
                    self.skip_value(depth - 1)?;
                }
                Ok(())
            }
            Token::BeginObject if depth > 0 => {
                while self.next_key()?.is_some() {
                    self.skip_value(depth - 1)?;
                }
                Ok(())
            }
            _ => self.stop(),
        }
    }

    /// No token follows.
    pub fn stop<T>(&mut self) -> Result<T, Invalid> {
        self.place = Place::Failed;
        Err(Invalid)
    }

    /// The one bad token.
    fn refuse(&mut self) -> Option<Token<'a>> {
        let failed = self.place == Place::Failed;
        self.place = Place::Failed;
        if failed { None } else { Some(Token::Bad) }
    }

    /// The token that begins with this byte, or None where it is faulty.
    fn take(&mut self, first: u8) -> Option<Token<'a>> {
        let token = match first {
            b'"' => return self.take_string(),
            b'{' => Token::BeginObject,
            b'[' => Token::BeginArray,
            b'}' => Token::EndObject,
            b']' => Token::EndArray,
            _ => {
                let word = self.lexer.word()?;
                self.end_value();
                return Some(word);
            }
        };
        self.lexer.skip();
        match token {
            Token::BeginObject | Token::BeginArray => self.place = Place::Fresh,
            _ => self.end_value(),
        }
        Some(token)
    }

    fn take_string(&mut self) -> Option<Token<'a>> {
        let text = self.lexer.string()?;
        if self.lexer.peek() == Some(b':') {
            self.lexer.skip();
            self.place = Place::Fresh;
            return Some(Token::Key(text));
        }
        self.end_value();
        Some(Token::String(text))
    }

    /// Goes past the comma that may follow a value.
    fn end_value(&mut self) {
        self.place = Place::AfterValue;
        if self.lexer.peek() == Some(b',') {
            self.lexer.skip();
            self.place = Place::AfterComma;
        }
    }
}
