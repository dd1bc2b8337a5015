//! The tree of a JSON value.
//!
//! Strings and names are kept unescaped, numbers as the text they were written
//! with, members in the order they were written in. The names of one object are
//! all different: the reader refuses repeats and no operation makes one.

use crate::number;

/// One JSON value.
#[derive(Clone, Debug)]
pub enum Value {
    /// `null`
    Null,
    /// `true` or `false`
    Bool(bool),
    /// A number, as its source text.
    Number(String),
    /// A string, unescaped.
    Text(String),
    /// An array.
    Array(Vec<Value>),
    /// An object.
    Object(Vec<Member>),
}

/// One member of an object.
#[derive(Clone, Debug)]
pub struct Member {
    /// The name, unescaped.
    pub name: String,
    /// What it names.
    pub value: Value,
}

impl Value {
    /// The member of that name, if this is an object that has one.
    pub fn member(&self, name: &str) -> Option<&Value> {
        match self {
            Value::Object(members) => members.iter().find(|m| m.name == name).map(|m| &m.value),
            _ => None,
        }
    }

    /// The values directly inside this one.
    pub fn children(&self) -> Vec<&Value> {
        match self {
            Value::Array(items) => items.iter().collect(),
            Value::Object(members) => members.iter().map(|m| &m.value).collect(),
            _ => Vec::new(),
        }
    }

    /// How many containers are nested here: 0 for a scalar, 1 for `[]`.
    pub fn depth(&self) -> usize {
        match self {
            Value::Array(_) | Value::Object(_) => {
                1 + self.children().into_iter().map(Value::depth).max().unwrap_or(0)
            }
            _ => 0,
        }
    }

    /// How many values there are, this one included. Names are not counted.
    pub fn nodes(&self) -> usize {
        1 + self.children().into_iter().map(Value::nodes).sum::<usize>()
    }
}

/// Whether two values are equal in the sense of the `test` operation.
pub fn equal(left: &Value, right: &Value) -> bool {
    match (left, right) {
        (Value::Null, Value::Null) => true,
        (Value::Bool(a), Value::Bool(b)) => a == b,
        (Value::Number(a), Value::Number(b)) => number::equal(a, b),
        (Value::Text(a), Value::Text(b)) => a == b,
        (Value::Array(a), Value::Array(b)) => {
            a.len() == b.len() && a.iter().zip(b).all(|(a, b)| equal(a, b))
        }
        (Value::Object(a), Value::Object(b)) => {
            // As many members on both sides and names all different within a
            // side: it is enough to look up each of the left in the right.
            a.len() == b.len()
                && a.iter()
                    .all(|m| right.member(&m.name).is_some_and(|other| equal(&m.value, other)))
        }
        _ => false,
    }
}
