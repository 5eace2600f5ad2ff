//! Values as trees over a borrowed text.
use super::reader::{Reader, Scratch, Token};
use super::{Error, MAX_DEPTH};
use crate::shim::Vec;

/// A value. A number stays text; an object keeps its members in their order, also those that stand twice.
#[derive(Debug)]
pub enum Value<'a> {
    Null,
    Bool(bool),
    Number(&'a str),
    String(&'a str),
    Array(Vec<Value<'a>>),
    Object(Vec<(&'a str, Value<'a>)>),
}

impl<'a> Value<'a> {
    /// The one value of a text.
    pub fn parse(text: &'a str, scratch: &'a mut Scratch) -> Result<Value<'a>, Error> {
        let mut reader = Reader::new(text, scratch)?;
        let value = Value::read(&mut reader, MAX_DEPTH)?;
        match reader.next() {
            None => Ok(value),
            Some(_) => Err(Error::Invalid),
        }
    }

    /// The next value of a reader, in which lists and objects may nest so deep.
    fn read(reader: &mut Reader<'a>, depth: usize) -> Result<Value<'a>, Error> {
        match reader.next().ok_or(Error::Invalid)? {
            Token::Null => Ok(Value::Null),
            Token::Bool(value) => Ok(Value::Bool(value)),
            Token::Number(text) => Ok(Value::Number(text)),
            Token::String(text) => Ok(Value::String(text)),
            Token::BeginArray if depth > 0 => Value::read_array(reader, depth - 1),
            Token::BeginObject if depth > 0 => Value::read_object(reader, depth - 1),
            _ => Ok(reader.stop()?),
        }
    }

    fn read_array(reader: &mut Reader<'a>, depth: usize) -> Result<Value<'a>, Error> {
        let mut items = Vec::new();
        while !reader.take_end_array() {
            let item = Value::read(reader, depth)?;
            items.push(item).map_err(|_| Error::OutOfMemory)?;
        }
        Ok(Value::Array(items))
    }

    fn read_object(reader: &mut Reader<'a>, depth: usize) -> Result<Value<'a>, Error> {
        let mut members = Vec::new();
        while let Some(key) = reader.next_key()? {
            let value = Value::read(reader, depth)?;
            members.push((key, value)).map_err(|_| Error::OutOfMemory)?;
        }
        Ok(Value::Object(members))
    }

    pub fn is_null(&self) -> bool {
        matches!(self, Value::Null)
    }

    pub fn as_bool(&self) -> Option<bool> {
        match self {
            Value::Bool(value) => Some(*value),
            _ => None,
        }
    }

    /// The text of a number.
    pub fn as_number(&self) -> Option<&'a str> {
        match self {
            Value::Number(text) => Some(text),
            _ => None,
        }
    }

    pub fn as_str(&self) -> Option<&'a str> {
        match self {
            Value::String(text) => Some(text),
            _ => None,
        }
    }

    /// The last member of a name.
    pub fn get(&self, name: &str) -> Option<&Value<'a>> {
        match self {
            Value::Object(members) => members.iter().rev().find(|member| member.0 == name).map(|member| &member.1),
            _ => None,
        }
    }
}
