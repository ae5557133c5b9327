//! Presence texts. Nine in ten of those that are picked are JSON (RFC 8259, nested at most 16 deep), as those that users see; the rest is no JSON.
use crate::random::Random;
use beside_rust::encoding::read::Cursor;
use beside_rust::sync::{Message, MessageReader};
use beside_rust::updates::decoder::DecoderV1;
use serde::de::IgnoredAny;
use std::sync::Arc;

/// As deep as arrays and objects of a text that is JSON may stand in each other.
pub const MAX_DEPTH: usize = 16;

/// Short texts that are JSON. Some come near null.
const JSON: [&[u8]; 18] = [
    b"1",
    b"2",
    b"\"in\"",
    b"null",
    b" null",
    b"null\n",
    b"\"null\"",
    b"\"\"",
    b"-0",
    b"1E+2",
    b"-12.5e-7",
    b"true",
    b"{\"file\":1}",
    b"[ 1 , [ { } ] ]\t",
    b"\"\\\"\\\\\\/\\b\\f\\n\\r\\t\\u00E9\\ud800\"",
    b"\"\x7f\xc2\x80\"",
    b"\"\xed\x9f\xbf\xee\x80\x80\"",
    b"\"\xf0\x90\x80\x80\xf4\x8f\xbf\xbf\"",
];

/// Texts that are no JSON.
pub const NO_JSON: [&[u8]; 20] = [
    b"",
    b" ",
    b"a",
    b"nul",
    b"nulll",
    b"Null",
    b"in the hall",
    b"1 2",
    b"01",
    b"1.",
    b"+1",
    b"\"in",
    b"\"\x1f\"",
    b"\"\\q\"",
    b"\"\\u12\"",
    b"[1,]",
    b"{\"a\"}",
    b"]",
    b"\xef\xbb\xbf1",
    b"\xc3\xa9",
];

/// Few texts, so that one often comes again: of JSON, and of what is none.
const FEW: [&[u8]; 4] = [b"1", b"2", b"\"\"", b"\"\xc3\xa9\""];
const FEW_NO_JSON: [&[u8]; 4] = [b"a", b"b", b"", b"\xc3\xa9"];

/// Whether the texts that are picked are JSON.
#[derive(Clone, Copy, PartialEq, Eq)]
pub enum Texts {
    Json,
    NoJson,
    /// nine in ten are JSON
    Mixed,
}

impl Texts {
    /// What a script is made of: JSON alone, or in one of ten what is no JSON.
    pub fn of_script(r: &mut Random) -> Self {
        if r.once_in(10) {
            Texts::NoJson
        } else {
            Texts::Json
        }
    }

    /// Whether the next text is JSON.
    fn next(self, r: &mut Random) -> bool {
        match self {
            Texts::Json => true,
            Texts::NoJson => false,
            Texts::Mixed => !r.once_in(10),
        }
    }

    /// A text of any kind.
    pub fn any(self, r: &mut Random) -> Vec<u8> {
        match (self.next(r), r.below(30)) {
            (true, 0) => nested(r.below(MAX_DEPTH + 1)),
            (true, 1..=3) => value(r, 3),
            (true, _) => r.pick(&JSON).to_vec(),
            (false, 0) => nested(MAX_DEPTH + 1),
            (false, _) => r.pick(&NO_JSON).to_vec(),
        }
    }

    /// One of few texts.
    pub fn of_few(self, r: &mut Random) -> Vec<u8> {
        let few = if self.next(r) { &FEW } else { &FEW_NO_JSON };
        r.pick(few).to_vec()
    }

    /// Whether messages, as the Rust reads them, show nothing else than such texts.
    pub fn admit(self, messages: &[u8]) -> bool {
        self != Texts::Json || shown(messages).iter().all(|text| is_json(text))
    }
}

/// The presence texts of messages.
fn shown(messages: &[u8]) -> Vec<Arc<str>> {
    let mut decoder = DecoderV1::new(Cursor::new(messages));
    let mut texts = Vec::new();
    for message in MessageReader::new(&mut decoder).map_while(Result::ok) {
        if let Message::Awareness(update) = message {
            texts.extend(update.clients.into_values().map(|entry| entry.json));
        }
    }
    texts
}

/// Whether a text is JSON, however deep.
fn is_json(text: &str) -> bool {
    serde_json::from_str::<IgnoredAny>(text).is_ok()
}

/// A text of so many bytes in quotes, with these at its end; where there is no room for it, with as few as it may have.
pub fn quoted(len: usize, end: &[u8]) -> Vec<u8> {
    let letters = vec![b'a'; len.saturating_sub(end.len() + 2)];
    [b"\"", &letters[..], end, b"\""].concat()
}

/// Arrays and objects in each other, so many deep.
pub fn nested(depth: usize) -> Vec<u8> {
    (0..depth).fold(b"1".to_vec(), |inner, level| match level % 2 {
        0 => [b"[", &inner[..], b"]"].concat(),
        _ => [b"{\"a\":", &inner[..], b"}"].concat(),
    })
}

/// A JSON value of arrays and objects that are so many deep at most, with few items each; it is shorter than 256 bytes.
fn value(r: &mut Random, depth: usize) -> Vec<u8> {
    let blank = |r: &mut Random| *r.pick(&[&b""[..], b"", b"", b" ", b"\n\t\r"]);
    let len = r.below(3);
    let items = |r: &mut Random, item: fn(&mut Random, usize) -> Vec<u8>| {
        let items: Vec<_> = (0..len).map(|_| [&item(r, depth - 1)[..], blank(r)].concat()).collect();
        items.join(&b","[..])
    };
    let inner = match r.below(if depth == 0 { 4 } else { 8 }) {
        0 => b"false".to_vec(),
        1 => b"null".to_vec(),
        2 => format!("{}", r.below(1 << 20)).into_bytes(),
        3 => r.pick(&[&b"\"a\\u0000\""[..], b"\"\xc3\xa9\"", b"-0.5"]).to_vec(),
        4 | 5 => [b"[", &items(r, value)[..], b"]"].concat(),
        _ => [b"{", &items(r, member)[..], b"}"].concat(),
    };
    [blank(r), &inner[..]].concat()
}

/// A name and its value.
fn member(r: &mut Random, depth: usize) -> Vec<u8> {
    [*r.pick(&[&b"\"a\":"[..], b"\"b\" :", b"\"\":"]), &value(r, depth)[..]].concat()
}

#[cfg(test)]
mod tests {
    use super::*;

    #[test]
    fn texts_are_what_they_are_named() {
        let utf8 = |text: &[u8]| String::from_utf8(text.to_vec()).expect("UTF-8");
        assert!(JSON.into_iter().chain(FEW).all(|text| is_json(&utf8(text))));
        assert!(!NO_JSON.into_iter().chain(FEW_NO_JSON).any(|text| is_json(&utf8(text))));
        assert_eq!((quoted(256, b"\xc3\xa9").len(), quoted(1, b"").len()), (256, 2));
    }

    #[test]
    fn values_are_json_and_short() {
        let mut r = Random::new(1);
        for _ in 0..10_000 {
            let value = String::from_utf8(value(&mut r, 3)).expect("UTF-8");
            assert!(value.len() < 256 && is_json(&value), "{value}");
        }
        assert!(is_json(&String::from_utf8(nested(MAX_DEPTH)).expect("UTF-8")));
    }

    #[test]
    fn nine_in_ten_are_json() {
        let mut r = Random::new(1);
        let texts: Vec<_> = (0..10_000).map(|_| Texts::Mixed.any(&mut r)).collect();
        let json = texts.iter().filter(|text| String::from_utf8((*text).clone()).is_ok_and(|text| is_json(&text))).count();
        assert!((8900..9200).contains(&json), "{json}");
    }
}
