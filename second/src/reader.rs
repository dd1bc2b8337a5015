//! Reading a JSON text into a tree, left to right, to the first refusal.

use crate::cursor::{Cursor, Refusal};
use crate::limits::{MOST_LEVELS, MOST_NODES};
use crate::numeral::numeral;
use crate::refusals::{NOT_JSON, REPEATED_NAME, TOO_DEEP, TOO_MANY_NODES};
use crate::strings::string;
use crate::value::{Member, Value};

/// Reads a whole text. Its length is not judged here.
pub fn read(text: &[u8]) -> Result<Value, Refusal> {
    let mut reader = Reader { cursor: Cursor::new(text), nodes: 0 };
    reader.cursor.blanks();
    let value = reader.value(1)?;
    reader.cursor.blanks();
    match reader.cursor.peek() {
        None => Ok(value),
        Some(_) => Err(reader.cursor.refuse(NOT_JSON)),
    }
}

struct Reader<'a> {
    cursor: Cursor<'a>,
    /// The values begun so far.
    nodes: usize,
}

impl Reader<'_> {
    /// Reads the value whose first byte is next. If it is a container, it opens
    /// the given level.
    fn value(&mut self, level: usize) -> Result<Value, Refusal> {
        match self.cursor.peek() {
            Some(b'[') => {
                self.open(level)?;
                self.begin()?;
                self.array(level)
            }
            Some(b'{') => {
                self.open(level)?;
                self.begin()?;
                self.object(level)
            }
            Some(b'"') => {
                self.begin()?;
                string(&mut self.cursor).map(Value::Text)
            }
            Some(b'-' | b'0'..=b'9') => {
                self.begin()?;
                numeral(&mut self.cursor).map(Value::Number)
            }
            Some(b'n') => self.literal(b"null", Value::Null),
            Some(b't') => self.literal(b"true", Value::Bool(true)),
            Some(b'f') => self.literal(b"false", Value::Bool(false)),
            Some(_) | None => Err(self.cursor.refuse(NOT_JSON)),
        }
    }

    /// Refuses the bracket that is next, if its level is too deep.
    fn open(&self, level: usize) -> Result<(), Refusal> {
        if level > MOST_LEVELS {
            return Err(self.cursor.refuse(TOO_DEEP));
        }
        Ok(())
    }

    /// Counts the value whose first byte is next.
    fn begin(&mut self) -> Result<(), Refusal> {
        self.nodes += 1;
        if self.nodes > MOST_NODES {
            return Err(self.cursor.refuse(TOO_MANY_NODES));
        }
        Ok(())
    }

    fn literal(&mut self, word: &[u8], value: Value) -> Result<Value, Refusal> {
        self.begin()?;
        for &byte in word {
            self.require(byte)?;
        }
        Ok(value)
    }

    /// Passes a byte that must be next.
    fn require(&mut self, byte: u8) -> Result<(), Refusal> {
        if self.cursor.skip(byte) {
            Ok(())
        } else {
            Err(self.cursor.refuse(NOT_JSON))
        }
    }

    fn array(&mut self, level: usize) -> Result<Value, Refusal> {
        let mut items = Vec::new();
        self.require(b'[')?;
        self.cursor.blanks();
        if self.cursor.skip(b']') {
            return Ok(Value::Array(items));
        }
        loop {
            items.push(self.value(level + 1)?);
            self.cursor.blanks();
            if self.cursor.skip(b']') {
                return Ok(Value::Array(items));
            }
            self.require(b',')?;
            self.cursor.blanks();
        }
    }

    fn object(&mut self, level: usize) -> Result<Value, Refusal> {
        let mut members = Vec::new();
        self.require(b'{')?;
        self.cursor.blanks();
        if self.cursor.skip(b'}') {
            return Ok(Value::Object(members));
        }
        loop {
            let name = self.name(&members)?;
            self.cursor.blanks();
            self.require(b':')?;
            self.cursor.blanks();
            let value = self.value(level + 1)?;
            members.push(Member { name, value });
            self.cursor.blanks();
            if self.cursor.skip(b'}') {
                return Ok(Value::Object(members));
            }
            self.require(b',')?;
            self.cursor.blanks();
        }
    }

    /// Reads a member's name. A repeated one is refused at its closing quote,
    /// which is the byte just read.
    fn name(&mut self, members: &[Member]) -> Result<String, Refusal> {
        if self.cursor.peek() != Some(b'"') {
            return Err(self.cursor.refuse(NOT_JSON));
        }
        let name = string(&mut self.cursor)?;
        if members.iter().any(|member| member.name == name) {
            let place = self.cursor.place() - 1;
            return Err(Refusal { number: REPEATED_NAME, place });
        }
        Ok(name)
    }
}
