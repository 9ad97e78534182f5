//! JSON, as RFC 8259 has it: values with their places in the text, numbers as they are written, so that no decimal is lost. And strings written as JSON.

use crate::shape::Fault;

pub struct Value<'a> {
    pub at: usize,
    pub is: Is<'a>,
}

pub enum Is<'a> {
    Null,
    Bool(bool),
    Number(&'a str),
    Text(String),
    List(Vec<Value<'a>>),
    Members(Vec<(String, Value<'a>)>),
}

impl<'a> Value<'a> {
    pub fn member(&self, name: &str) -> Option<&Value<'a>> {
        match &self.is {
            Is::Members(members) => members.iter().find(|(key, _)| key == name).map(|(_, value)| value),
            _ => None,
        }
    }

    pub fn list(&self) -> Option<&[Value<'a>]> {
        match &self.is {
            Is::List(values) => Some(values),
            _ => None,
        }
    }

    pub fn text(&self) -> Option<&str> {
        match &self.is {
            Is::Text(text) => Some(text),
            _ => None,
        }
    }

    /// What it is, for messages.
    pub fn what(&self) -> &'static str {
        match self.is {
            Is::Null => "null",
            Is::Bool(_) => "true or false",
            Is::Number(_) => "a number",
            Is::Text(_) => "a string",
            Is::List(_) => "a list",
            Is::Members(_) => "an object",
        }
    }
}

/// Lists and objects in each other, at most.
const DEPTH: usize = 128;

/// All values of a text: one, or a line for each as in GeoJSON text sequences.
pub fn read(text: &str) -> Result<Vec<Value<'_>>, Fault> {
    // a byte order mark may stand first
    let at = text.len() - text.trim_start_matches('\u{feff}').len();
    let mut reader = Reader { text, bytes: text.as_bytes(), at };
    let mut values = Vec::new();
    loop {
        reader.white();
        if reader.at == text.len() {
            return Ok(values);
        }
        values.push(reader.value(0)?);
    }
}

struct Reader<'a> {
    text: &'a str,
    bytes: &'a [u8],
    at: usize,
}

impl<'a> Reader<'a> {
    /// White space, and the record separator that may stand before a text.
    fn white(&mut self) {
        while self.bytes.get(self.at).is_some_and(|b| b" \t\r\n\x1e".contains(b)) {
            self.at += 1;
        }
    }

    fn expected(&self, what: &str) -> Fault {
        let found = match self.text[self.at..].chars().next() {
            Some(c) => format!("\"{}\"", c.escape_debug()),
            None => "the end of the text".to_string(),
        };
        Fault { at: self.at, message: format!("no JSON: expected {what}, found {found}") }
    }

    fn is(&mut self, byte: u8) -> bool {
        self.white();
        let is = self.bytes.get(self.at) == Some(&byte);
        self.at += is as usize;
        is
    }

    fn value(&mut self, depth: usize) -> Result<Value<'a>, Fault> {
        self.white();
        let at = self.at;
        if depth == DEPTH {
            return Err(Fault { at, message: format!("no JSON that is read: more than {DEPTH} lists in each other") });
        }
        let is = match self.bytes.get(at) {
            Some(b'{') => self.members(depth)?,
            Some(b'[') => self.values(depth)?,
            Some(b'"') => Is::Text(self.string()?),
            Some(b'-' | b'0'..=b'9') => Is::Number(self.number()),
            _ => self.word()?,
        };
        Ok(Value { at, is })
    }

    fn members(&mut self, depth: usize) -> Result<Is<'a>, Fault> {
        self.at += 1;
        let mut members = Vec::new();
        if self.is(b'}') {
            return Ok(Is::Members(members));
        }
        loop {
            self.white();
            if self.bytes.get(self.at) != Some(&b'"') {
                return Err(self.expected("a name in quotes"));
            }
            let name = self.string()?;
            if !self.is(b':') {
                return Err(self.expected("\":\""));
            }
            members.push((name, self.value(depth + 1)?));
            match (self.is(b','), self.is(b'}')) {
                (true, false) => {}
                (false, true) => return Ok(Is::Members(members)),
                _ => return Err(self.expected("\",\" or \"}\"")),
            }
        }
    }

    fn values(&mut self, depth: usize) -> Result<Is<'a>, Fault> {
        self.at += 1;
        let mut values = Vec::new();
        if self.is(b']') {
            return Ok(Is::List(values));
        }
        loop {
            values.push(self.value(depth + 1)?);
            if self.is(b']') {
                values.shrink_to_fit();
                return Ok(Is::List(values));
            }
            if !self.is(b',') {
                return Err(self.expected("\",\" or \"]\""));
            }
        }
    }

    fn number(&mut self) -> &'a str {
        let from = self.at;
        while self.bytes.get(self.at).is_some_and(|b| b.is_ascii_alphanumeric() || b"+-.".contains(b)) {
            self.at += 1;
        }
        &self.text[from..self.at]
    }

    fn word(&mut self) -> Result<Is<'a>, Fault> {
        for (word, is) in [("null", Is::Null), ("true", Is::Bool(true)), ("false", Is::Bool(false)), ("NaN", Is::Number("NaN"))] {
            if self.text[self.at..].starts_with(word) {
                self.at += word.len();
                return Ok(is);
            }
        }
        Err(self.expected("a value"))
    }

    fn string(&mut self) -> Result<String, Fault> {
        self.at += 1;
        let mut string = String::new();
        loop {
            let rest = &self.text[self.at..];
            let plain = rest.find(['"', '\\']).unwrap_or(rest.len());
            string.push_str(&rest[..plain]);
            self.at += plain;
            match self.bytes.get(self.at) {
                Some(b'"') => break,
                Some(_) => string.push(self.escape()?),
                None => return Err(self.expected("a quote")),
            }
        }
        self.at += 1;
        Ok(string)
    }

    fn escape(&mut self) -> Result<char, Fault> {
        self.at += 2;
        Ok(match self.bytes.get(self.at - 1) {
            Some(b'b') => '\u{8}',
            Some(b'f') => '\u{c}',
            Some(b'n') => '\n',
            Some(b'r') => '\r',
            Some(b't') => '\t',
            Some(b'u') => self.unicode()?,
            Some(c @ (b'"' | b'\\' | b'/')) => *c as char,
            _ => {
                self.at -= 1;
                return Err(self.expected("an escape"));
            }
        })
    }

    /// Four digits, and four more where they are half of a pair.
    fn unicode(&mut self) -> Result<char, Fault> {
        let high = self.four()?;
        if !(0xd800..0xdc00).contains(&high) || !self.text[self.at..].starts_with("\\u") {
            return Ok(char::from_u32(high).unwrap_or('\u{fffd}'));
        }
        self.at += 2;
        let low = self.four()?;
        Ok(char::from_u32(0x10000 + ((high - 0xd800) << 10) + (low.wrapping_sub(0xdc00) & 0x3ff)).unwrap_or('\u{fffd}'))
    }

    fn four(&mut self) -> Result<u32, Fault> {
        let digits = self.text.get(self.at..self.at + 4).and_then(|digits| u32::from_str_radix(digits, 16).ok());
        let Some(value) = digits else {
            return Err(self.expected("four hexadecimal digits"));
        };
        self.at += 4;
        Ok(value)
    }
}

/// A string as JSON has it.
pub fn quoted(text: &str) -> String {
    let mut quoted = String::with_capacity(text.len() + 2);
    quoted.push('"');
    for c in text.chars() {
        match c {
            '"' | '\\' => quoted.extend(['\\', c]),
            '\n' => quoted.push_str("\\n"),
            c if c < ' ' => quoted.push_str(&format!("\\u{:04x}", c as u32)),
            c => quoted.push(c),
        }
    }
    quoted.push('"');
    quoted
}

#[cfg(test)]
mod tests {
    use super::*;

    fn fault(text: &str) -> Fault {
        read(text).err().unwrap()
    }

    #[test]
    fn values() {
        let values = read("\u{feff}{\"a\": [1.50, -2e3, \"x\\u00e9\\ud83d\\ude00\\n\"], \"b\": {}} \u{1e}[]\nnull").unwrap();
        assert_eq!(values.len(), 3);
        let list = values[0].member("a").and_then(Value::list).unwrap();
        assert!(matches!(list[0].is, Is::Number("1.50")) && matches!(list[1].is, Is::Number("-2e3")));
        assert_eq!(list[2].text(), Some("xé😀\n"));
        assert_eq!(list[1].at, 16);
        assert!(values[0].member("c").is_none() && matches!(values[2].is, Is::Null));
    }

    #[test]
    fn no_json() {
        assert_eq!(fault("{\"a\" 1}"), Fault { at: 5, message: "no JSON: expected \":\", found \"1\"".to_string() });
        assert_eq!(fault("[1, 2").message, "no JSON: expected \",\" or \"]\", found the end of the text");
        assert_eq!(fault("[1, ]").message, "no JSON: expected a value, found \"]\"");
        assert_eq!(fault("{\"a\": \"b").message, "no JSON: expected a quote, found the end of the text");
        assert_eq!(fault("{1: 2}").message, "no JSON: expected a name in quotes, found \"1\"");
        for text in ["[\"\\x\"]", "\"\\u12\"", "\"\\", "\"\\u12é\"", "{", "tru", &"[".repeat(100_000)] {
            assert!(fault(text).message.starts_with("no JSON"), "{text}");
        }
    }

    #[test]
    fn written() {
        assert_eq!(quoted("a\"b\\c\nd\u{1}é"), "\"a\\\"b\\\\c\\nd\\u0001é\"");
    }
}
