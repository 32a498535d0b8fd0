//! JSON as a tree of values, with maps for objects, as a common library has it.

use std::collections::BTreeMap;

/// How many arrays and objects may lie within one another.
const LEVELS: usize = 127;

#[allow(dead_code, reason = "a tree has every value, also those that no job uses")]
pub enum Value {
    Null,
    Bool(bool),
    Whole(u64),
    Negative(i64),
    Float(f64),
    Text(String),
    List(Vec<Value>),
    Object(BTreeMap<String, Value>),
}

pub struct BadJson;

/// The value of a text, or that it is no JSON.
pub fn parse(text: &str) -> Result<Value, BadJson> {
    let mut parser = Parser { bytes: text.as_bytes(), text, at: 0, depth: 0 };
    let value = parser.value()?;
    parser.blanks();
    if parser.at == text.len() { Ok(value) } else { Err(BadJson) }
}

struct Parser<'t> {
    bytes: &'t [u8],
    text: &'t str,
    at: usize,
    depth: usize,
}

impl<'t> Parser<'t> {
    fn peek(&self) -> u8 {
        self.bytes.get(self.at).copied().unwrap_or(0)
    }

    fn blanks(&mut self) {
        while matches!(self.peek(), b' ' | b'\t' | b'\n' | b'\r') {
            self.at += 1;
        }
    }

    fn take(&mut self, byte: u8) -> bool {
        self.blanks();
        let is_there = self.peek() == byte;
        self.at += usize::from(is_there);
        is_there
    }

    fn word(&mut self, word: &str, value: Value) -> Result<Value, BadJson> {
        if !self.bytes[self.at..].starts_with(word.as_bytes()) {
            return Err(BadJson);
        }
        self.at += word.len();
        Ok(value)
    }

    fn value(&mut self) -> Result<Value, BadJson> {
        self.blanks();
        match self.peek() {
            b'"' => Ok(Value::Text(self.string()?)),
            b'{' => self.object(),
            b'[' => self.list(),
            b't' => self.word("true", Value::Bool(true)),
            b'f' => self.word("false", Value::Bool(false)),
            b'n' => self.word("null", Value::Null),
            _ => self.number(),
        }
    }

    fn down(&mut self) -> Result<(), BadJson> {
        self.at += 1;
        self.depth += 1;
        if self.depth > LEVELS { Err(BadJson) } else { Ok(()) }
    }

    fn list(&mut self) -> Result<Value, BadJson> {
        self.down()?;
        let mut items = Vec::new();
        if !self.take(b']') {
            loop {
                items.push(self.value()?);
                if self.take(b']') {
                    break;
                }
                if !self.take(b',') {
                    return Err(BadJson);
                }
            }
        }
        self.depth -= 1;
        Ok(Value::List(items))
    }

    fn object(&mut self) -> Result<Value, BadJson> {
        self.down()?;
        let mut members = BTreeMap::new();
        if !self.take(b'}') {
            loop {
                self.blanks();
                if self.peek() != b'"' {
                    return Err(BadJson);
                }
                let key = self.string()?;
                if !self.take(b':') {
                    return Err(BadJson);
                }
                members.insert(key, self.value()?);
                if self.take(b'}') {
                    break;
                }
                if !self.take(b',') {
                    return Err(BadJson);
                }
            }
        }
        self.depth -= 1;
        Ok(Value::Object(members))
    }

    fn string(&mut self) -> Result<String, BadJson> {
        self.at += 1;
        let start = self.at;
        while !matches!(self.peek(), b'"' | b'\\' | 0..=0x1f) {
            self.at += 1;
        }
        let mut string = String::from(&self.text[start..self.at]);
        loop {
            match self.peek() {
                b'"' => {
                    self.at += 1;
                    return Ok(string);
                }
                b'\\' => {
                    self.at += 1;
                    string.push(self.escaped()?);
                }
                _ => return Err(BadJson),
            }
            let start = self.at;
            while !matches!(self.peek(), b'"' | b'\\' | 0..=0x1f) {
                self.at += 1;
            }
            string.push_str(&self.text[start..self.at]);
        }
    }

    fn escaped(&mut self) -> Result<char, BadJson> {
        self.at += 1;
        Ok(match self.bytes.get(self.at - 1).copied().unwrap_or(0) {
            letter @ (b'"' | b'\\' | b'/') => char::from(letter),
            b'b' => '\u{8}',
            b'f' => '\u{c}',
            b'n' => '\n',
            b'r' => '\r',
            b't' => '\t',
            b'u' => return self.code_point(),
            _ => return Err(BadJson),
        })
    }

    fn unit(&mut self) -> Result<u32, BadJson> {
        let digits = self.text.get(self.at..self.at + 4).ok_or(BadJson)?;
        if !digits.bytes().all(|b| b.is_ascii_hexdigit()) {
            return Err(BadJson);
        }
        self.at += 4;
        u32::from_str_radix(digits, 16).map_err(|_| BadJson)
    }

    fn code_point(&mut self) -> Result<char, BadJson> {
        let first = self.unit()?;
        if !(0xD800..0xDC00).contains(&first) {
            return char::from_u32(first).ok_or(BadJson);
        }
        if !self.bytes[self.at..].starts_with(b"\\u") {
            return Err(BadJson);
        }
        self.at += 2;
        let second = self.unit()?;
        if !(0xDC00..0xE000).contains(&second) {
            return Err(BadJson);
        }
        char::from_u32(0x10000 + ((first - 0xD800) << 10) + (second - 0xDC00)).ok_or(BadJson)
    }

    fn digits(&mut self) -> Result<(), BadJson> {
        let start = self.at;
        while self.peek().is_ascii_digit() {
            self.at += 1;
        }
        if self.at == start { Err(BadJson) } else { Ok(()) }
    }

    fn number(&mut self) -> Result<Value, BadJson> {
        let start = self.at;
        self.at += usize::from(self.peek() == b'-');
        let is_zero = self.peek() == b'0';
        let first = self.at;
        self.digits()?;
        if is_zero && self.at > first + 1 {
            return Err(BadJson);
        }
        let mut is_whole = true;
        if self.peek() == b'.' {
            self.at += 1;
            self.digits()?;
            is_whole = false;
        }
        if matches!(self.peek(), b'e' | b'E') {
            self.at += 1;
            self.at += usize::from(matches!(self.peek(), b'+' | b'-'));
            self.digits()?;
            is_whole = false;
        }
        self.number_of(&self.text[start..self.at], is_whole)
    }

    fn number_of(&self, text: &str, is_whole: bool) -> Result<Value, BadJson> {
        if is_whole {
            if let Ok(number) = text.parse() {
                return Ok(Value::Whole(number));
            }
            if let Ok(number) = text.parse::<i64>() {
                if number != 0 {
                    return Ok(Value::Negative(number));
                }
            }
        }
        let float: f64 = text.parse().map_err(|_| BadJson)?;
        if float.is_finite() { Ok(Value::Float(float)) } else { Err(BadJson) }
    }
}

impl Value {
    pub fn get(&self, key: &str) -> Option<&Value> {
        match self {
            Value::Object(members) => members.get(key),
            _ => None,
        }
    }
}
