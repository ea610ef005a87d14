//! Values of JSON, read as the library reads them and written as it writes them.

use std::collections::BTreeMap;

// The deepest nesting that the library reads.
const DEEPEST: usize = 127;

/// A value of JSON. A key that stands twice has its last value.
#[derive(Clone, Debug, PartialEq)]
pub(crate) enum Value {
    Null,
    Bool(bool),
    /// A number as it is written.
    Number(String),
    Text(String),
    Array(Vec<Value>),
    Object(BTreeMap<String, Value>),
}

impl Value {
    /// The value that a text is, or `None` where it isn't JSON or nests too deeply.
    pub(crate) fn read(text: &str) -> Option<Value> {
        let mut reader = Reader { rest: text };
        let value = reader.value(0)?;
        reader.skip_space();
        reader.rest.is_empty().then_some(value)
    }

    /// The object of these members.
    pub(crate) fn object<const N: usize>(members: [(&str, Value); N]) -> Value {
        let owned = members.map(|(key, value)| (key.to_owned(), value));
        Value::Object(BTreeMap::from(owned))
    }

    /// The compact text, whose keys ascend.
    pub(crate) fn text(&self) -> String {
        let mut text = String::new();
        self.write(&mut text);
        text
    }

    fn write(&self, to: &mut String) {
        match self {
            Value::Null => to.push_str("null"),
            Value::Bool(value) => to.push_str(if *value { "true" } else { "false" }),
            Value::Number(digits) => to.push_str(digits),
            Value::Text(text) => write_text(text, to),
            Value::Array(items) => {
                let write = |item: &Value, to: &mut String| item.write(to);
                write_list(('[', ']'), items.iter(), write, to);
            }
            Value::Object(members) => {
                let write = |(key, value): (&String, &Value), to: &mut String| {
                    write_text(key, to);
                    to.push(':');
                    value.write(to);
                };
                write_list(('{', '}'), members.iter(), write, to);
            }
        }
    }
}

fn write_list<T>(
    ends: (char, char),
    items: impl Iterator<Item = T>,
    write: impl Fn(T, &mut String),
    to: &mut String,
) {
    to.push(ends.0);
    for (place, item) in items.enumerate() {
        if place > 0 {
            to.push(',');
        }
        write(item, to);
    }
    to.push(ends.1);
}

fn write_text(text: &str, to: &mut String) {
    to.push('"');
    for mark in text.chars() {
        match mark {
            '"' | '\\' => to.extend(['\\', mark]),
            '\0'..='\x1f' => to.push_str(&format!("\\u{:04x}", u32::from(mark))),
            _ => to.push(mark),
        }
    }
    to.push('"');
}

// What is left of a text.
struct Reader<'a> {
    rest: &'a str,
}

impl<'a> Reader<'a> {
    fn skip_space(&mut self) {
        self.rest = self.rest.trim_start_matches([' ', '\n', '\r', '\t']);
    }

    // Takes a mark, if it is next.
    fn takes(&mut self, mark: char) -> bool {
        let rest = self.rest.strip_prefix(mark);
        self.rest = rest.unwrap_or(self.rest);
        rest.is_some()
    }

    // Takes the longest run of marks of a kind.
    fn run(&mut self, is_one: impl Fn(char) -> bool) -> &'a str {
        let end = self.rest.find(|mark| !is_one(mark));
        let (run, rest) = self.rest.split_at(end.unwrap_or(self.rest.len()));
        self.rest = rest;
        run
    }

    // The value that is next, inside `depth` others.
    fn value(&mut self, depth: usize) -> Option<Value> {
        self.skip_space();
        match self.rest.chars().next()? {
            '{' | '[' if depth >= DEEPEST => None,
            '{' => self.object(depth),
            '[' => self.array(depth),
            '"' => self.string().map(Value::Text),
            '-' | '0'..='9' => self.number(),
            _ => match self.run(|mark| mark.is_ascii_alphabetic()) {
                "null" => Some(Value::Null),
                "true" => Some(Value::Bool(true)),
                "false" => Some(Value::Bool(false)),
                _ => None,
            },
        }
    }

    fn array(&mut self, depth: usize) -> Option<Value> {
        let mut items = Vec::new();
        self.list('[', ']', |reader| {
            items.push(reader.value(depth + 1)?);
            Some(())
        })?;
        Some(Value::Array(items))
    }

    fn object(&mut self, depth: usize) -> Option<Value> {
        let mut members = BTreeMap::new();
        self.list('{', '}', |reader| {
            let key = reader.string()?;
            reader.skip_space();
            if !reader.takes(':') {
                return None;
            }
            members.insert(key, reader.value(depth + 1)?);
            Some(())
        })?;
        Some(Value::Object(members))
    }

    // Reads the items of a list, from its first mark to its last.
    fn list(
        &mut self,
        first: char,
        last: char,
        mut item: impl FnMut(&mut Self) -> Option<()>,
    ) -> Option<()> {
        self.takes(first);
        self.skip_space();
        if self.takes(last) {
            return Some(());
        }
        loop {
            self.skip_space();
            item(self)?;
            self.skip_space();
            if self.takes(last) {
                return Some(());
            }
            if !self.takes(',') {
                return None;
            }
        }
    }

    // A number: its whole part, a fraction and an exponent. The library takes none that a float
    // doesn't hold.
    fn number(&mut self) -> Option<Value> {
        let start = self.rest;
        self.takes('-');
        let whole = self.run(|mark| mark.is_ascii_digit());
        if whole.is_empty() || (whole.len() > 1 && whole.starts_with('0')) {
            return None;
        }
        if self.takes('.') {
            self.digits()?;
        }
        if self.takes('e') || self.takes('E') {
            let _ = self.takes('-') || self.takes('+');
            self.digits()?;
        }
        let number = &start[..start.len() - self.rest.len()];
        let is_held = number.parse::<f64>().ok()?.is_finite();
        is_held.then(|| Value::Number(number.to_owned()))
    }

    // One digit or more.
    fn digits(&mut self) -> Option<()> {
        let digits = self.run(|mark| mark.is_ascii_digit());
        (!digits.is_empty()).then_some(())
    }

    // A string, up to its closing quote, which is taken too.
    fn string(&mut self) -> Option<String> {
        let mut text = String::new();
        if !self.takes('"') {
            return None;
        }
        loop {
            text.push_str(self.run(|mark| mark >= ' ' && mark != '"' && mark != '\\'));
            if self.takes('"') {
                return Some(text);
            }
            if !self.takes('\\') {
                return None;
            }
            text.push(self.escaped()?);
        }
    }

    // What stands behind a backslash.
    fn escaped(&mut self) -> Option<char> {
        let mark = self.next()?;
        Some(match mark {
            '"' | '\\' | '/' => mark,
            'b' => '\x08',
            'f' => '\x0c',
            'n' => '\n',
            'r' => '\r',
            't' => '\t',
            'u' => return self.code_point(),
            _ => return None,
        })
    }

    // The character of one escape by number, or of two that are a surrogate pair.
    fn code_point(&mut self) -> Option<char> {
        let first = self.unit()?;
        if !(0xd800..0xdc00).contains(&first) {
            return char::from_u32(first);
        }
        if !(self.takes('\\') && self.takes('u')) {
            return None;
        }
        let low = self.unit()?.checked_sub(0xdc00);
        let low = low.filter(|low| *low < 0x400)?;
        char::from_u32(0x10000 + ((first - 0xd800) << 10) + low)
    }

    // The number of four hexadecimal digits.
    fn unit(&mut self) -> Option<u32> {
        let digits = self.rest.get(..4)?;
        self.rest = &self.rest[4..];
        let is_hex = digits.chars().all(|mark| mark.is_ascii_hexdigit());
        u32::from_str_radix(digits, 16).ok().filter(|_| is_hex)
    }

    fn next(&mut self) -> Option<char> {
        let mut marks = self.rest.chars();
        let mark = marks.next()?;
        self.rest = marks.as_str();
        Some(mark)
    }
}

#[cfg(test)]
mod tests {
    use super::Value;

    #[test]
    fn texts_that_are_json() {
        for (text, due) in [
            (" [ ] ", "[]"),
            ("{\"b\":1,\"a\":{}}", "{\"a\":{},\"b\":1}"),
            ("{\"a\":1,\"a\":2}", "{\"a\":2}"),
            ("[null,true,false,-0.5e+3]", "[null,true,false,-0.5e+3]"),
            ("\"\\u0041\\n\\\"\\/\"", "\"A\\u000a\\\"/\""),
            ("\"\\ud83d\\ude00\"", "\"\u{1f600}\""),
        ] {
            let read = Value::read(text).map(|value| value.text());
            assert_eq!(read.as_deref(), Some(due), "{text}");
        }
    }

    #[test]
    fn texts_that_are_none() {
        for text in [
            "",
            " ",
            "[",
            "[1,]",
            "[1 2]",
            "{\"a\"}",
            "{\"a\":}",
            "{a:1}",
            "{\"a\":1,}",
            "01",
            "-",
            "1.",
            ".5",
            "1e",
            "+1",
            "1e999",
            "nul",
            "nulls",
            "NaN",
            "\"",
            "\"\n\"",
            "\"\\x\"",
            "\"\\u12g4\"",
            "\"\\u123\"",
            "\"\\ud800\"",
            "\"\\ud800\\u0041\"",
            "\"\\udc00\"",
            "[] []",
            "\u{feff}[]",
            "\u{a0}[]",
            "\0",
        ] {
            assert_eq!(Value::read(text), None, "{text:?}");
        }
        assert_eq!(Value::read(&"1".repeat(400)), None);
    }

    #[test]
    fn the_deepest_nesting() {
        let nested = |depth| "[".repeat(depth) + &"]".repeat(depth);
        assert!(Value::read(&nested(127)).is_some());
        assert_eq!(Value::read(&nested(128)), None);
        assert_eq!(Value::read(&"[".repeat(100_000)), None);
    }
}
