//! JSON values with their numbers and strings as they are written, and JSON Patch over them.

/// A JSON value.
#[derive(Clone, Debug, PartialEq)]
pub enum Json {
    /// A number, `true`, `false` or `null`.
    Word(String),
    /// A string.
    Text(String),
    /// An array.
    Array(Vec<Json>),
    /// An object, by its keys in order.
    Object(Vec<(String, Json)>),
}

impl Json {
    /// The value that a text is.
    pub fn read(text: &str) -> Json {
        let mut reader = Reader { rest: text };
        let value = reader.value();
        assert_eq!(reader.rest.trim_start(), "", "more than a value");
        value
    }

    /// The member of an object with this key.
    pub fn get(&self, key: &str) -> Option<&Json> {
        let Json::Object(members) = self else {
            return None;
        };
        members
            .iter()
            .find(|(name, _)| name == key)
            .map(|(_, value)| value)
    }

    /// The string that this is.
    pub fn text(&self) -> &str {
        match self {
            Json::Text(text) => text,
            other => panic!("no string: {other:?}"),
        }
    }

    /// The items of the array that this is.
    pub fn items(&self) -> &[Json] {
        match self {
            Json::Array(items) => items,
            other => panic!("no array: {other:?}"),
        }
    }

    /// The compact text.
    pub fn compact(&self) -> String {
        match self {
            Json::Word(word) => word.clone(),
            Json::Text(text) => quoted(text),
            Json::Array(items) => format!("[{}]", joined(items.iter().map(Json::compact))),
            Json::Object(members) => {
                let told = |(key, value): &(String, Json)| quoted(key) + ":" + &value.compact();
                format!("{{{}}}", joined(members.iter().map(told)))
            }
        }
    }

    /// Makes one change of a JSON Patch.
    pub fn change(&mut self, change: &Json) {
        let path = change.get("path").expect("a path").text();
        let (holder, last) = path.rsplit_once('/').expect("a last part");
        let new = change.get("value").cloned();
        let is_added = change.get("op").expect("an operation").text() == "add";
        let is_part = |part: &&str| !part.is_empty();
        match holder.split('/').filter(is_part).fold(self, Json::at) {
            Json::Array(items) => {
                let place = last.parse().unwrap_or(items.len());
                let replaced = usize::from(!is_added);
                items.splice(place..place + replaced, new);
            }
            Json::Object(members) => {
                let at = members.iter().position(|(key, _)| key == last);
                let place = at.unwrap_or(members.len());
                let replaced = usize::from(at.is_some());
                let new = new.map(|value| (last.to_owned(), value));
                members.splice(place..place + replaced, new);
            }
            other => panic!("{other:?} holds nothing"),
        }
    }

    // The value at one part of a JSON pointer.
    fn at(&mut self, part: &str) -> &mut Json {
        match self {
            Json::Array(items) => &mut items[part.parse::<usize>().expect("a place")],
            Json::Object(members) => {
                let found = members.iter_mut().find(|(key, _)| key == part);
                &mut found.expect("a member").1
            }
            other => panic!("{other:?} holds nothing"),
        }
    }
}

fn joined(parts: impl Iterator<Item = String>) -> String {
    parts.collect::<Vec<_>>().join(",")
}

fn quoted(text: &str) -> String {
    let escaped = text
        .replace('\\', "\\\\")
        .replace('"', "\\\"")
        .replace('\n', "\\n");
    format!("\"{escaped}\"")
}

// What is left of a text.
struct Reader<'a> {
    rest: &'a str,
}

impl Reader<'_> {
    // Takes a mark that may have space before it, and says whether it is there.
    fn takes(&mut self, mark: char) -> bool {
        let rest = self.rest.trim_start().strip_prefix(mark);
        self.rest = rest.unwrap_or(self.rest);
        rest.is_some()
    }

    fn value(&mut self) -> Json {
        if self.takes('{') {
            Json::Object(self.list('}', |reader| {
                assert!(reader.takes('"'), "no key");
                let key = reader.text();
                assert!(reader.takes(':'), "no colon");
                (key, reader.value())
            }))
        } else if self.takes('[') {
            Json::Array(self.list(']', Reader::value))
        } else if self.takes('"') {
            Json::Text(self.text())
        } else {
            Json::Word(self.word())
        }
    }

    // The items up to the end of a list.
    fn list<T>(&mut self, end: char, item: impl Fn(&mut Self) -> T) -> Vec<T> {
        let mut items = Vec::new();
        while !self.takes(end) {
            assert!(items.is_empty() || self.takes(','), "no comma");
            items.push(item(self));
        }
        items
    }

    fn word(&mut self) -> String {
        let rest = self.rest.trim_start();
        let is_end = |mark: char| mark.is_whitespace() || ",]}".contains(mark);
        let (word, rest) = rest.split_at(rest.find(is_end).unwrap_or(rest.len()));
        assert!(!word.is_empty(), "no value");
        self.rest = rest;
        word.to_owned()
    }

    // The string up to its closing quote, which is taken too.
    fn text(&mut self) -> String {
        let mut text = String::new();
        let mut marks = self.rest.chars();
        loop {
            match marks.next().expect("a quote") {
                '"' => break,
                '\\' => text.push(match marks.next().expect("an escape") {
                    'n' => '\n',
                    't' => '\t',
                    mark @ ('"' | '\\' | '/') => mark,
                    mark => panic!("the escape {mark}"),
                }),
                mark => text.push(mark),
            }
        }
        self.rest = marks.as_str();
        text
    }
}
