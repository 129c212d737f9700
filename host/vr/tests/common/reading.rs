//! A reader of JSON, for the tests alone.

/// A value of JSON; vr writes no fractions and no negative numbers.
#[derive(Debug, Clone, PartialEq, Eq)]
pub enum Json {
    Null,
    Truth(bool),
    Number(u64),
    Text(String),
    Array(Vec<Json>),
    Object(Vec<(String, Json)>),
}

impl Json {
    /// The whole text as one value.
    pub fn read(text: &str) -> Json {
        let mut reader = Reader { rest: text };
        let value = reader.value();
        assert_eq!(reader.rest.trim(), "");
        value
    }

    /// A member of an object.
    pub fn of(&self, name: &str) -> &Json {
        let members = match self {
            Json::Object(members) => members,
            other => panic!("{name} of {other:?}"),
        };
        let mut named = members.iter().filter(|(its, _)| its == name);
        let (_, value) = named.next().unwrap();
        assert!(named.next().is_none(), "{name} twice");
        value
    }

    // Not every test needs it.
    #[allow(dead_code)]
    pub fn elements(&self) -> &[Json] {
        match self {
            Json::Array(elements) => elements,
            other => panic!("no array: {other:?}"),
        }
    }

    pub fn number(&self) -> u64 {
        match self {
            Json::Number(number) => *number,
            other => panic!("no number: {other:?}"),
        }
    }

    // Not every test needs it.
    #[allow(dead_code)]
    pub fn text(&self) -> &str {
        match self {
            Json::Text(text) => text,
            other => panic!("no text: {other:?}"),
        }
    }
}

struct Reader<'t> {
    rest: &'t str,
}

impl Reader<'_> {
    /// Go past this if it comes next.
    fn takes(&mut self, what: &str) -> bool {
        self.rest = self.rest.trim_start();
        match self.rest.strip_prefix(what) {
            Some(rest) => {
                self.rest = rest;
                true
            }
            None => false,
        }
    }

    fn value(&mut self) -> Json {
        let words = [
            ("null", Json::Null),
            ("true", Json::Truth(true)),
            ("false", Json::Truth(false)),
        ];
        for (word, value) in words {
            if self.takes(word) {
                return value;
            }
        }
        if self.takes("[") {
            Json::Array(self.until("]", Reader::value))
        } else if self.takes("{") {
            Json::Object(self.until("}", Reader::member))
        } else if self.takes("\"") {
            Json::Text(self.text())
        } else {
            Json::Number(self.digits())
        }
    }

    /// Items with commas between, up to this end.
    fn until<T>(&mut self, end: &str, item: fn(&mut Self) -> T) -> Vec<T> {
        let mut items = Vec::new();
        while !self.takes(end) {
            assert!(
                items.is_empty() || self.takes(","),
                "no comma: {:.20}",
                self.rest
            );
            items.push(item(self));
        }
        items
    }

    fn member(&mut self) -> (String, Json) {
        assert!(self.takes("\""), "no name: {:.20}", self.rest);
        let name = self.text();
        assert!(self.takes(":"), "no colon: {:.20}", self.rest);
        (name, self.value())
    }

    /// Up to the quote that ends it; vr writes nothing that must be escaped.
    fn text(&mut self) -> String {
        let (text, rest) = self.rest.split_once('"').unwrap();
        assert!(!text.contains('\\'));
        self.rest = rest;
        text.to_string()
    }

    fn digits(&mut self) -> u64 {
        let end = self.rest.find(|c: char| !c.is_ascii_digit());
        let (digits, rest) = self.rest.split_at(end.unwrap_or(self.rest.len()));
        self.rest = rest;
        digits.parse().unwrap()
    }
}
