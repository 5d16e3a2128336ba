//! Objects of JSON, written member after member. EDITS.md, "Listings of a segment's file" and "Listings of an image".

use crate::words::{push_hex, push_number};

/// An object that is being written at the end of a text.
pub struct Object<'a> {
    text: &'a mut Vec<u8>,
    has_members: bool,
}

impl<'a> Object<'a> {
    /// Begins an object.
    pub fn begin(text: &'a mut Vec<u8>) -> Object<'a> {
        text.push(b'{');
        Object { text, has_members: false }
    }

    /// Ends it.
    pub fn end(self) {
        self.text.push(b'}');
    }

    fn key(&mut self, key: &str) {
        if self.has_members {
            self.text.push(b',');
        }
        self.has_members = true;
        self.text.push(b'"');
        self.text.extend_from_slice(key.as_bytes());
        self.text.extend_from_slice(b"\":");
    }

    /// A member that is a number.
    pub fn number(&mut self, key: &str, number: u64) {
        self.key(key);
        push_number(self.text, number);
    }

    /// A member whose value is written by a function.
    pub fn value(&mut self, key: &str, write: impl FnOnce(&mut Vec<u8>)) {
        self.key(key);
        write(self.text);
    }

    /// A member that is a text.
    pub fn text(&mut self, key: &str, value: &[u8]) {
        self.key(key);
        push_string(self.text, value);
    }

    /// The member `op`.
    pub fn op(&mut self, kind: &str) {
        self.key("op");
        self.text.extend_from_slice(b"\"OP_");
        self.text.extend_from_slice(kind.as_bytes());
        self.text.push(b'"');
    }

    /// A member that is a text of hexadecimal digits.
    pub fn hexadecimal(&mut self, key: &str, bytes: &[u8]) {
        self.key(key);
        self.text.push(b'"');
        push_hex(self.text, bytes);
        self.text.push(b'"');
    }

    /// A member that is a truth value.
    pub fn truth(&mut self, key: &str, value: bool) {
        self.key(key);
        self.text.extend_from_slice(if value { b"true" } else { b"false" });
    }

    /// A member that is an array of numbers.
    pub fn numbers(&mut self, key: &str, values: &[u64]) {
        self.key(key);
        push_array(self.text, values, |text, value| push_number(text, *value));
    }

    /// A member that is an array of texts.
    pub fn texts(&mut self, key: &str, values: &[&[u8]]) {
        self.key(key);
        push_array(self.text, values, |text, value| push_string(text, value));
    }
}

fn push_array<T>(text: &mut Vec<u8>, values: &[T], push: impl Fn(&mut Vec<u8>, &T)) {
    text.push(b'[');
    for (place, value) in values.iter().enumerate() {
        if place > 0 {
            text.push(b',');
        }
        push(text, value);
    }
    text.push(b']');
}

/// Appends a text between quotes; its bytes are from 0x21 to 0x7E.
pub fn push_string(text: &mut Vec<u8>, value: &[u8]) {
    text.push(b'"');
    if value.iter().any(|byte| b"\"\\".contains(byte)) {
        for &byte in value {
            if byte == b'"' || byte == b'\\' {
                text.push(b'\\');
            }
            text.push(byte);
        }
    } else {
        text.extend_from_slice(value);
    }
    text.push(b'"');
}
