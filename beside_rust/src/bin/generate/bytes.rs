//! Bytes of messages, vectors and updates, around the limits of every field.
use crate::random::Random;
use crate::texts::{self, Texts};
use beside_rust::encoding::write::Write;

/// How far a generator goes: everything that bytes can be, or what a hub's script is mostly made of.
#[derive(Clone, Copy, PartialEq, Eq)]
pub enum Width {
    Wide,
    Narrow,
}

/// What bytes are made of.
#[derive(Clone, Copy)]
pub struct Scope {
    pub width: Width,
    /// the lowest clock where it is narrow
    pub clock: u64,
    /// what presence shows
    pub texts: Texts,
    /// whether there are many entries now and then
    pub crowds: bool,
}

pub const WIDE: Scope = Scope { width: Width::Wide, clock: 0, texts: Texts::Mixed, crowds: true };
pub const NARROW: Scope = Scope { width: Width::Narrow, clock: 0, texts: Texts::Json, crowds: true };

const NARROW_CLIENTS: [u64; 5] = [1, 2, 5, 7, 9];
const CLIENTS: [u64; 13] = [0, 1, 2, 5, 7, 9, 63, 64, 127, 128, 300, 1 << 40, (1 << 53) - 1];
const PAST_CLIENTS: [u64; 3] = [1 << 53, (1 << 53) + 7, u64::MAX];
const CLOCKS: [u64; 12] = [0, 1, 2, 3, 5, 127, 128, 300, 16384, 65536, 0xffff_fffe, 0xffff_ffff];
const NOT_TEXTS: [&[u8]; 9] = [
    b"\xff",
    b"\xc0\x80",
    b"\xed\xa0\x80",
    b"\xf4\x90\x80\x80",
    b"\xe2\x82",
    b"a\x80",
    b"\xe0\x9f\xbf",
    b"\xf0\x8f\xbf\xbf",
    b"\xc1\xbf",
];

/// A number, mostly in its shortest spelling, now and then in a longer one or in one that never ends.
pub fn number(r: &mut Random, value: u64) -> Vec<u8> {
    let mut bytes = Vec::new();
    bytes.write_var(value);
    if r.once_in(12) && bytes.len() < 10 {
        let longer = bytes.len() + 1 + r.below(10 - bytes.len());
        *bytes.last_mut().expect("a number has a byte") |= 0x80;
        bytes.resize(longer, 0x80);
        *bytes.last_mut().expect("a number has a byte") = if r.once_in(8) { 0x80 } else { 0 };
    }
    bytes
}

pub fn client(r: &mut Random, scope: Scope) -> u64 {
    match scope.width {
        Width::Narrow => *r.pick(&NARROW_CLIENTS),
        Width::Wide if r.once_in(60) => *r.pick(&PAST_CLIENTS),
        Width::Wide => *r.pick(&CLIENTS),
    }
}

pub fn clock(r: &mut Random, scope: Scope) -> u64 {
    match scope.width {
        Width::Narrow => scope.clock + r.below(6) as u64,
        Width::Wide if r.once_in(40) => 1 << 32,
        Width::Wide => *r.pick(&CLOCKS),
    }
}

/// A text, now and then one that is none or is too long.
pub fn text(r: &mut Random, scope: Scope) -> Vec<u8> {
    match r.below(if scope.width == Width::Wide { 60 } else { 1000 }) {
        0 => texts::quoted(257, b""),
        1 => texts::quoted(256, b""),
        2 => texts::quoted(256, "é".as_bytes()),
        3 => texts::quoted(257, b"\xff"),
        4 | 5 => r.pick(&NOT_TEXTS).to_vec(),
        _ if scope.width == Width::Narrow && r.once_in(5) => b"null".to_vec(),
        _ => scope.texts.any(r),
    }
}

/// How many entries: few, now and then as many as there may be and one more.
fn len(r: &mut Random, scope: Scope) -> usize {
    match r.below(100) {
        0 if scope.crowds => 64,
        1 if scope.crowds => 65,
        2 if scope.crowds => 20,
        _ => r.below(4),
    }
}

/// A count that is declared: mostly the true one.
fn declared(r: &mut Random, true_count: usize) -> u64 {
    match r.below(60) {
        0 => true_count as u64 + 1,
        1 => (true_count as u64).saturating_sub(1),
        2 => *r.pick(&[64, 65, 1 << 20, 0xffff_ffff, 1 << 32, u64::MAX]),
        _ => true_count as u64,
    }
}

/// Bytes that follow where none should: mostly none.
fn left_over(r: &mut Random) -> &'static [u8] {
    if r.once_in(20) {
        b"\x00"
    } else {
        b""
    }
}

/// A count and so many entries; where there are many, each is of a client of its own, and mostly too in what scripts are made of.
fn counted(r: &mut Random, scope: Scope, entry: impl Fn(&mut Random, u64) -> Vec<u8>) -> Vec<u8> {
    let len = len(r, scope);
    let count = declared(r, len);
    let mut bytes = number(r, count);
    let first = r.below(NARROW_CLIENTS.len());
    // of two crowds one alone fits a hub, and both together do not
    let crowd = *r.pick(&[0, 0, 40]);
    let repeats = scope.width == Width::Wide || r.once_in(200);
    for i in 0..len {
        let client = match len {
            5.. => crowd + i as u64,
            _ if repeats => client(r, scope),
            _ => NARROW_CLIENTS[(first + i) % NARROW_CLIENTS.len()],
        };
        let spelt = number(r, client);
        bytes.extend(spelt);
        bytes.extend(entry(r, client));
    }
    bytes.extend(left_over(r));
    bytes
}

pub fn vector(r: &mut Random, scope: Scope) -> Vec<u8> {
    counted(r, scope, |r, _| {
        let clock = clock(r, scope);
        number(r, clock)
    })
}

pub fn presence(r: &mut Random, scope: Scope) -> Vec<u8> {
    counted(r, scope, |r, _| {
        let clock = clock(r, scope);
        let text = text(r, scope);
        let mut bytes = number(r, clock);
        bytes.extend(number(r, text.len() as u64));
        bytes.extend(text);
        bytes
    })
}

pub fn counts(r: &mut Random, scope: Scope) -> Vec<u8> {
    vector(r, scope)
}

pub fn slots(r: &mut Random, scope: Scope) -> Vec<u8> {
    counted(r, scope, |r, _| {
        let clock = if r.once_in(30) { 0 } else { clock(r, scope).max(1) };
        let slot = match r.below(25) {
            0 => vec![0xff; 33],
            1 => vec![0xff; 32],
            _ => r.pick(&[&b""[..], b"a", b"ab", b"b", b"\x00", b"\xff", b"a\x00"]).to_vec(),
        };
        let mut bytes = number(r, clock);
        bytes.extend(number(r, slot.len() as u64));
        bytes.extend(slot);
        bytes
    })
}

/// A buffer, now and then with a length that is not its own.
fn buffer(r: &mut Random, bytes: &[u8]) -> Vec<u8> {
    let len = if r.once_in(60) { bytes.len() as u64 + 1 } else { bytes.len() as u64 };
    let mut out = number(r, len);
    out.extend_from_slice(bytes);
    out
}

/// An update of either board, or bytes that are none.
pub fn update(r: &mut Random, scope: Scope) -> Vec<u8> {
    match r.below(10) {
        0 => (0..r.below(6)).map(|_| r.byte()).collect(),
        1..=4 => slots(r, scope),
        _ => counts(r, scope),
    }
}

fn sync(r: &mut Random, scope: Scope) -> Vec<u8> {
    let kind = match r.below(30) {
        0 => *r.pick(&[3, 4, 255, 256]),
        _ => r.below(3) as u64,
    };
    let held = if kind == 0 { vector(r, scope) } else { update(r, scope) };
    let mut bytes = number(r, kind);
    bytes.extend(buffer(r, &held));
    bytes
}

fn auth(r: &mut Random, scope: Scope) -> Vec<u8> {
    let flag = *r.pick(&[0, 0, 1, 2, 127, 128, 255, 256]);
    let mut bytes = number(r, flag);
    if flag == 0 {
        let reason = text(r, scope);
        bytes.extend(buffer(r, &reason));
    }
    bytes
}

/// One message, of any kind.
pub fn message(r: &mut Random, scope: Scope) -> Vec<u8> {
    let tag = match r.below(12) {
        0..=3 => 0,
        4..=7 => 1,
        8 => 2,
        9 => 3,
        _ => *r.pick(&[4, 15, 16, 31, 32, 127, 128, 200, 255, 256]),
    };
    let mut bytes = number(r, tag);
    bytes.extend(match tag {
        0 => sync(r, scope),
        1 => {
            let held = presence(r, scope);
            buffer(r, &held)
        }
        2 => auth(r, scope),
        3 => Vec::new(),
        _ => {
            let data: Vec<u8> = (0..r.below(4)).map(|_| r.byte()).collect();
            buffer(r, &data)
        }
    });
    bytes
}

/// So many messages, one after another.
pub fn messages(r: &mut Random, scope: Scope, len: usize) -> Vec<u8> {
    (0..len).flat_map(|_| message(r, scope)).collect()
}

/// Bytes with a place or two changed, left out, doubled or cut off.
pub fn damaged(r: &mut Random, mut bytes: Vec<u8>) -> Vec<u8> {
    for _ in 0..1 + r.below(2) {
        if bytes.is_empty() {
            return bytes;
        }
        let at = r.below(bytes.len());
        match r.below(6) {
            0 => bytes.truncate(at),
            1 => drop(bytes.remove(at)),
            2 => bytes.insert(at, bytes[at]),
            3 => bytes[at] ^= 1 << r.below(8),
            4 => bytes[at] = *r.pick(&[0x00, 0x01, 0x7f, 0x80, 0xff]),
            _ => bytes[at] = bytes[at].wrapping_add(1),
        }
    }
    bytes
}
