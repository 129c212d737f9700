//! A reader of XML, for the tests alone: what vr writes of it, and nothing else.

use std::collections::BTreeMap;

/// An element, with the text that stands in it and in none of its elements.
#[derive(Debug, Clone, PartialEq, Eq)]
pub struct Element {
    pub name: String,
    pub attributes: BTreeMap<String, String>,
    pub text: String,
    pub elements: Vec<Element>,
}

impl Element {
    /// The whole text as one element; what is not well formed is an error.
    pub fn read(text: &str) -> Element {
        let mut reader = Reader { rest: text };
        let element = reader.element();
        assert_eq!(reader.rest.trim(), "", "behind the last tag");
        element
    }

    // Not every test needs it.
    #[allow(dead_code)]
    pub fn of(&self, name: &str) -> &str {
        &self.attributes[name]
    }

    /// The elements of a name in it, in their order.
    // Not every test needs it.
    #[allow(dead_code)]
    pub fn named<'e>(&'e self, name: &'e str) -> impl Iterator<Item = &'e Element> + 'e {
        self.elements.iter().filter(move |inner| inner.name == name)
    }

    /// It and all that are in it.
    // Not every test needs it.
    #[allow(dead_code)]
    pub fn all(&self) -> Vec<&Element> {
        let inner = self.elements.iter().flat_map(Element::all);
        std::iter::once(self).chain(inner).collect()
    }
}

struct Reader<'t> {
    rest: &'t str,
}

impl<'t> Reader<'t> {
    /// What comes before this, which is gone past.
    fn until(&mut self, what: char) -> &'t str {
        let (before, behind) = self.rest.split_once(what).expect("an end is missing");
        self.rest = behind;
        before
    }

    fn element(&mut self) -> Element {
        assert_eq!(self.until('<').trim(), "");
        let tag = self.until('>');
        let (tag, closed) = match tag.strip_suffix('/') {
            Some(tag) => (tag, true),
            None => (tag, false),
        };
        let (name, attributes) = tag.split_once(' ').unwrap_or((tag, ""));
        assert!(name.chars().all(|c| c.is_ascii_alphanumeric()), "{name}");
        let mut element = Element {
            name: name.into(),
            attributes: read_attributes(attributes),
            text: String::new(),
            elements: Vec::new(),
        };
        if !closed {
            self.inside(&mut element);
        }
        element
    }

    /// Up to the tag that ends the element.
    fn inside(&mut self, element: &mut Element) {
        loop {
            let end = self.rest.find('<').expect("an end is missing");
            let (text, rest) = self.rest.split_at(end);
            element.text += &plain(text);
            self.rest = rest;
            if let Some(rest) = rest.strip_prefix("</") {
                self.rest = rest;
                assert_eq!(self.until('>'), element.name);
                return;
            }
            element.elements.push(self.element());
        }
    }
}

/// Names with values in quotes; none is there twice.
fn read_attributes(text: &str) -> BTreeMap<String, String> {
    let mut attributes = BTreeMap::new();
    let mut rest = text.trim();
    while !rest.is_empty() {
        let (name, behind) = rest.split_once("=\"").expect("a value without quotes");
        let (value, behind) = behind.split_once('"').expect("a quote is missing");
        assert!(
            name.chars().all(|c| c.is_ascii_alphabetic() || c == '-'),
            "{name}"
        );
        assert_eq!(attributes.insert(name.into(), plain(value)), None, "{name}");
        assert!(behind.is_empty() || behind.starts_with(' '), "{behind}");
        rest = behind.trim_start();
    }
    attributes
}

/// A text whose escaped characters are read; others that must be are an error.
fn plain(text: &str) -> String {
    assert!(!text.contains(['<', '>']), "{text}");
    let mut parts = text.split('&');
    let mut read = parts.next().unwrap().to_string();
    for part in parts {
        let (name, behind) = part.split_once(';').expect("a bare &");
        read += match name {
            "amp" => "&",
            "lt" => "<",
            "gt" => ">",
            "quot" => "\"",
            other => panic!("{other}"),
        };
        read += behind;
    }
    read
}
