//! Values of JSON, read from a text. EDITS.md, "From a listing back to a segment's file": UTF-8 and RFC 8259, and what it says beyond.

use std::collections::BTreeMap;

/// How deep arrays and objects nest. FORMATS.md, "Limits".
const DEEPEST: usize = 127;

/// A value. Of equal keys of an object the last counts, so it has each key once.
pub enum Value {
    Null,
    Truth(bool),
    /// Digits alone, of at most 2^64 - 1.
    Number(u64),
    /// Any other number: none that a listing has.
    OtherNumber,
    Text(String),
    Array(Vec<Value>),
    Object(BTreeMap<String, Value>),
}

/// The value that a text is; none where it isn't UTF-8, or isn't JSON.
pub fn read(text: &[u8]) -> Option<Value> {
    let mut reader = Reader { text: std::str::from_utf8(text).ok()?, place: 0 };
    let value = reader.value(DEEPEST)?;
    reader.peek().is_none().then_some(value)
}

/// A text that is read from some byte on.
struct Reader<'a> {
    text: &'a str,
    place: usize,
}

impl Reader<'_> {
    /// The byte at the place, if the text doesn't end there.
    fn here(&self) -> Option<u8> {
        self.text.as_bytes().get(self.place).copied()
    }

    /// The first byte behind the space that begins here. RFC 8259, section 2.
    fn peek(&mut self) -> Option<u8> {
        while let Some(b' ' | b'\t' | b'\n' | b'\r') = self.here() {
            self.place += 1;
        }
        self.here()
    }

    /// Goes past this byte, if it comes next behind space.
    fn skip(&mut self, wanted: u8) -> bool {
        let is_next = self.peek() == Some(wanted);
        self.place += usize::from(is_next);
        is_next
    }

    /// The value that comes next; arrays and objects nest at most so deep in it.
    fn value(&mut self, depth: usize) -> Option<Value> {
        match self.peek()? {
            b'"' => self.string().map(Value::Text),
            b'[' => self.array(depth.checked_sub(1)?),
            b'{' => self.object(depth.checked_sub(1)?),
            b'-' | b'0'..=b'9' => self.number(),
            b't' => self.word("true", Value::Truth(true)),
            b'f' => self.word("false", Value::Truth(false)),
            b'n' => self.word("null", Value::Null),
            _ => None,
        }
    }

    fn word(&mut self, word: &str, value: Value) -> Option<Value> {
        let is_here = self.text.as_bytes()[self.place..].starts_with(word.as_bytes());
        self.place += word.len();
        is_here.then_some(value)
    }

    // ## Arrays and objects: RFC 8259, sections 4 and 5

    fn array(&mut self, depth: usize) -> Option<Value> {
        let mut values = Vec::new();
        self.place += 1;
        if self.skip(b']') {
            return Some(Value::Array(values));
        }
        loop {
            values.push(self.value(depth)?);
            if self.ends(b']')? {
                return Some(Value::Array(values));
            }
        }
    }

    fn object(&mut self, depth: usize) -> Option<Value> {
        let mut members = BTreeMap::new();
        self.place += 1;
        if self.skip(b'}') {
            return Some(Value::Object(members));
        }
        loop {
            let key = if self.peek()? == b'"' { self.string()? } else { return None };
            let value = if self.skip(b':') { self.value(depth)? } else { return None };
            members.insert(key, value);
            if self.ends(b'}')? {
                return Some(Value::Object(members));
            }
        }
    }

    /// Whether the closing bracket comes next; none where no comma comes either.
    fn ends(&mut self, bracket: u8) -> Option<bool> {
        let byte = self.peek()?;
        self.place += 1;
        (byte == bracket || byte == b',').then_some(byte == bracket)
    }

    // ## Numbers: RFC 8259, section 6

    fn number(&mut self) -> Option<Value> {
        let begin = self.place;
        let is_negative = self.skip(b'-');
        let whole = self.place;
        match self.here()? {
            b'0' => self.place += 1,
            _ => self.digits()?,
        }
        let is_whole = !self.fraction()? & !self.exponent()?;
        if is_whole && !is_negative {
            if let Ok(number) = self.text[whole..self.place].parse() {
                return Some(Value::Number(number));
            }
        }
        // A number that no float of 64 bits can hold is read as an infinite one.
        let number: f64 = self.text[begin..self.place].parse().ok()?;
        number.is_finite().then_some(Value::OtherNumber)
    }

    /// One digit or more.
    fn digits(&mut self) -> Option<()> {
        let begin = self.place;
        while self.here().is_some_and(|byte| byte.is_ascii_digit()) {
            self.place += 1;
        }
        (self.place > begin).then_some(())
    }

    /// Whether a fraction stands here; none where a point has no digits behind it.
    fn fraction(&mut self) -> Option<bool> {
        if self.here() != Some(b'.') {
            return Some(false);
        }
        self.place += 1;
        self.digits()?;
        Some(true)
    }

    /// Whether an exponent stands here; none where it has no digits.
    fn exponent(&mut self) -> Option<bool> {
        if !matches!(self.here(), Some(b'e' | b'E')) {
            return Some(false);
        }
        self.place += 1;
        if let Some(b'+' | b'-') = self.here() {
            self.place += 1;
        }
        self.digits()?;
        Some(true)
    }

    // ## Strings: RFC 8259, section 7

    /// The text between the quote at the place and the next one that no backslash escapes.
    fn string(&mut self) -> Option<String> {
        self.place += 1;
        let mut text = String::from(self.plain_text()?);
        loop {
            let byte = self.here()?;
            self.place += 1;
            match byte {
                b'"' => return Some(text),
                _ => text.push(self.escaped()?),
            }
            text.push_str(self.plain_text()?);
        }
    }

    /// The characters up to the next quote or backslash, which it stops at; none where a control character or the end comes first.
    fn plain_text(&mut self) -> Option<&str> {
        let begin = self.place;
        let rest = &self.text.as_bytes()[begin..];
        let length = rest.iter().position(|&byte| byte == b'"' || byte == b'\\' || byte < b' ')?;
        self.place += length;
        (rest[length] >= b' ').then_some(&self.text[begin..self.place])
    }

    /// The character that stands escaped behind a backslash.
    fn escaped(&mut self) -> Option<char> {
        let byte = self.here()?;
        self.place += 1;
        Some(match byte {
            b'"' | b'\\' | b'/' => char::from(byte),
            b'b' => '\u{8}',
            b'f' => '\u{c}',
            b'n' => '\n',
            b'r' => '\r',
            b't' => '\t',
            b'u' => return self.character(),
            _ => return None,
        })
    }

    /// The character that one escape writes, or two as halves of a pair: no half stands alone.
    fn character(&mut self) -> Option<char> {
        let unit = self.unit()?;
        if !(0xd800..0xdc00).contains(&unit) {
            return char::from_u32(unit);
        }
        let is_pair = self.text.as_bytes()[self.place..].starts_with(b"\\u");
        self.place += 2;
        let other = if is_pair { self.unit()? } else { return None };
        let low = other.checked_sub(0xdc00).filter(|&low| low < 0x400)?;
        char::from_u32(0x10000 + ((unit - 0xd800) << 10) + low)
    }

    /// The number that four hexadecimal digits write.
    fn unit(&mut self) -> Option<u32> {
        let digits = self.text.as_bytes().get(self.place..self.place + 4)?;
        self.place += 4;
        digits.iter().try_fold(0, |unit, &digit| Some(unit * 16 + char::from(digit).to_digit(16)?))
    }
}
