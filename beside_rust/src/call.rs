//! Calls as text, one a line. README.md has the language.
use crate::standins::board::Kind;
use std::fmt;
use std::str::FromStr;

/// Bytes as text: two small digits a byte, `-` where there are none.
#[derive(Debug, Clone, PartialEq, Eq, Default)]
pub struct Hex(pub Vec<u8>);

impl fmt::Display for Hex {
    fn fmt(&self, f: &mut fmt::Formatter) -> fmt::Result {
        if self.0.is_empty() {
            return f.write_str("-");
        }
        self.0.iter().try_for_each(|byte| write!(f, "{byte:02x}"))
    }
}

impl FromStr for Hex {
    type Err = BadCall;

    fn from_str(text: &str) -> Result<Self, BadCall> {
        if text == "-" {
            return Ok(Hex::default());
        }
        let digits = text.as_bytes();
        if digits.is_empty() || !digits.len().is_multiple_of(2) || !text.is_ascii() {
            return Err(BadCall("bytes"));
        }
        let pairs = (0..text.len()).step_by(2).map(|i| u8::from_str_radix(&text[i..i + 2], 16));
        pairs.collect::<Result<_, _>>().map(Hex).map_err(|_| BadCall("bytes"))
    }
}

/// What of a line can't be read.
#[derive(Debug, Clone, Copy, PartialEq, Eq)]
pub struct BadCall(pub &'static str);

/// Items with commas between them, `-` where there are none.
pub struct Listed<T>(pub Vec<T>);

impl<T: fmt::Display> fmt::Display for Listed<T> {
    fn fmt(&self, f: &mut fmt::Formatter) -> fmt::Result {
        let Some((first, rest)) = self.0.split_first() else {
            return f.write_str("-");
        };
        write!(f, "{first}")?;
        rest.iter().try_for_each(|item| write!(f, ",{item}"))
    }
}

impl<T: FromStr> FromStr for Listed<T> {
    type Err = BadCall;

    fn from_str(text: &str) -> Result<Self, BadCall> {
        if text == "-" {
            return Ok(Listed(Vec::new()));
        }
        text.split(',').map(|item| item.parse().map_err(|_| BadCall("a list"))).collect::<Result<_, _>>().map(Listed)
    }
}

/// A client and its clock: `5:300`.
#[derive(Debug, Clone, Copy, PartialEq, Eq, PartialOrd, Ord)]
pub struct ClockOf {
    pub client: u64,
    pub clock: u32,
}

impl fmt::Display for ClockOf {
    fn fmt(&self, f: &mut fmt::Formatter) -> fmt::Result {
        write!(f, "{}:{}", self.client, self.clock)
    }
}

impl FromStr for ClockOf {
    type Err = BadCall;

    fn from_str(text: &str) -> Result<Self, BadCall> {
        let (client, clock) = text.split_once(':').ok_or(BadCall("a client and its clock"))?;
        Ok(ClockOf { client: number(client)?, clock: number(clock)? })
    }
}

/// What a client shows: bytes, or `null`.
#[derive(Debug, Clone, PartialEq, Eq)]
pub enum Shown {
    Null,
    Text(Hex),
}

impl fmt::Display for Shown {
    fn fmt(&self, f: &mut fmt::Formatter) -> fmt::Result {
        match self {
            Shown::Null => f.write_str("null"),
            Shown::Text(text) => text.fmt(f),
        }
    }
}

/// A client, its clock and what it shows: `7:3:22696e22`.
#[derive(Debug, Clone, PartialEq, Eq)]
pub struct Presence {
    pub at: ClockOf,
    pub shown: Shown,
}

impl fmt::Display for Presence {
    fn fmt(&self, f: &mut fmt::Formatter) -> fmt::Result {
        write!(f, "{}:{}", self.at, self.shown)
    }
}

impl FromStr for Presence {
    type Err = BadCall;

    fn from_str(text: &str) -> Result<Self, BadCall> {
        let (at, shown) = text.rsplit_once(':').ok_or(BadCall("a client, its clock and what it shows"))?;
        let shown = match shown {
            "null" => Shown::Null,
            text => Shown::Text(text.parse()?),
        };
        Ok(Presence { at: at.parse()?, shown })
    }
}

/// A message to be written, by its fields.
#[derive(Debug, Clone, PartialEq, Eq)]
pub enum Fields {
    Step1(Vec<ClockOf>),
    Step2(Hex),
    Update(Hex),
    Awareness(Vec<Presence>),
    Denied(Hex),
    Granted,
    Query,
    Custom(u8, Hex),
}

impl fmt::Display for Fields {
    fn fmt(&self, f: &mut fmt::Formatter) -> fmt::Result {
        match self {
            Fields::Step1(vector) => write!(f, "step1 {}", Listed(vector.clone())),
            Fields::Step2(update) => write!(f, "step2 {update}"),
            Fields::Update(update) => write!(f, "update {update}"),
            Fields::Awareness(entries) => write!(f, "awareness {}", Listed(entries.clone())),
            Fields::Denied(reason) => write!(f, "denied {reason}"),
            Fields::Granted => f.write_str("granted"),
            Fields::Query => f.write_str("query"),
            Fields::Custom(tag, data) => write!(f, "custom {tag} {data}"),
        }
    }
}

/// The policy of a hub: the Rust's own, or one that accepts the custom tags 16 to 31.
#[derive(Debug, Clone, Copy, PartialEq, Eq)]
pub enum Policy {
    Default,
    Ranges,
}

/// How a hub's clock goes on after a reading: it repeats it, or adds 1.
#[derive(Debug, Clone, Copy, PartialEq, Eq)]
pub enum Pace {
    Set,
    Step,
}

#[derive(Debug, Clone, PartialEq, Eq)]
pub enum Call {
    Hub { own: u64, kind: Kind, policy: Policy, pace: Pace, reading: u64 },
    Clock(u64),
    Handle(Hex),
    Apply(Hex),
    Set(Hex),
    Clean,
    Remove(u64),
    Step1,
    Start,
    Show(u64),
    List(Vec<u64>),
    Records,
    Document,
    Read(Hex),
    Write(Fields),
    Vector(Hex),
    Presence(Hex),
    Updates { kind: Kind, updates: Vec<Hex>, since: Hex },
}

impl fmt::Display for Kind {
    fn fmt(&self, f: &mut fmt::Formatter) -> fmt::Result {
        f.write_str(match self {
            Kind::Count => "count",
            Kind::Slot => "slot",
        })
    }
}

impl fmt::Display for Call {
    fn fmt(&self, f: &mut fmt::Formatter) -> fmt::Result {
        match self {
            Call::Hub { own, kind, policy, pace, reading } => {
                let policy = match policy {
                    Policy::Default => "default",
                    Policy::Ranges => "ranges",
                };
                let pace = match pace {
                    Pace::Set => "set",
                    Pace::Step => "step",
                };
                write!(f, "hub {own} {kind} {policy} {pace} {reading}")
            }
            Call::Clock(reading) => write!(f, "clock {reading}"),
            Call::Handle(bytes) => write!(f, "handle {bytes}"),
            Call::Apply(bytes) => write!(f, "apply {bytes}"),
            Call::Set(text) => write!(f, "set {text}"),
            Call::Clean => f.write_str("clean"),
            Call::Remove(client) => write!(f, "remove {client}"),
            Call::Step1 => f.write_str("step1"),
            Call::Start => f.write_str("start"),
            Call::Show(client) => write!(f, "show {client}"),
            Call::List(clients) => write!(f, "list {}", Listed(clients.clone())),
            Call::Records => f.write_str("records"),
            Call::Document => f.write_str("document"),
            Call::Read(bytes) => write!(f, "read {bytes}"),
            Call::Write(fields) => write!(f, "write {fields}"),
            Call::Vector(bytes) => write!(f, "vector {bytes}"),
            Call::Presence(bytes) => write!(f, "presence {bytes}"),
            Call::Updates { kind, updates, since } => write!(f, "updates {kind} {} {since}", Listed(updates.clone())),
        }
    }
}

fn number<T: FromStr>(word: &str) -> Result<T, BadCall> {
    word.parse().map_err(|_| BadCall("a number"))
}

fn kind(word: &str) -> Result<Kind, BadCall> {
    match word {
        "count" => Ok(Kind::Count),
        "slot" => Ok(Kind::Slot),
        _ => Err(BadCall("a board")),
    }
}

fn policy(word: &str) -> Result<Policy, BadCall> {
    match word {
        "default" => Ok(Policy::Default),
        "ranges" => Ok(Policy::Ranges),
        _ => Err(BadCall("a policy")),
    }
}

fn pace(word: &str) -> Result<Pace, BadCall> {
    match word {
        "set" => Ok(Pace::Set),
        "step" => Ok(Pace::Step),
        _ => Err(BadCall("a clock")),
    }
}

fn fields(words: &[&str]) -> Result<Fields, BadCall> {
    Ok(match *words {
        ["step1", vector] => Fields::Step1(vector.parse::<Listed<_>>()?.0),
        ["step2", update] => Fields::Step2(update.parse()?),
        ["update", update] => Fields::Update(update.parse()?),
        ["awareness", entries] => Fields::Awareness(entries.parse::<Listed<_>>()?.0),
        ["denied", reason] => Fields::Denied(reason.parse()?),
        ["granted"] => Fields::Granted,
        ["query"] => Fields::Query,
        ["custom", tag, data] => Fields::Custom(number(tag)?, data.parse()?),
        _ => return Err(BadCall("a message")),
    })
}

impl FromStr for Call {
    type Err = BadCall;

    fn from_str(line: &str) -> Result<Self, BadCall> {
        let words: Vec<&str> = line.split_ascii_whitespace().collect();
        Ok(match *words.as_slice() {
            ["hub", own, board, rules, clock, reading] => Call::Hub {
                own: number(own)?,
                kind: kind(board)?,
                policy: policy(rules)?,
                pace: pace(clock)?,
                reading: number(reading)?,
            },
            ["clock", reading] => Call::Clock(number(reading)?),
            ["handle", bytes] => Call::Handle(bytes.parse()?),
            ["apply", bytes] => Call::Apply(bytes.parse()?),
            ["set", text] => Call::Set(text.parse()?),
            ["clean"] => Call::Clean,
            ["remove", client] => Call::Remove(number(client)?),
            ["step1"] => Call::Step1,
            ["start"] => Call::Start,
            ["show", client] => Call::Show(number(client)?),
            ["list", clients] => Call::List(clients.parse::<Listed<_>>()?.0),
            ["records"] => Call::Records,
            ["document"] => Call::Document,
            ["read", bytes] => Call::Read(bytes.parse()?),
            ["write", ref message @ ..] => Call::Write(fields(message)?),
            ["vector", bytes] => Call::Vector(bytes.parse()?),
            ["presence", bytes] => Call::Presence(bytes.parse()?),
            ["updates", board, updates, since] => Call::Updates {
                kind: kind(board)?,
                // at least one: `-` is an update without bytes, and no empty list
                updates: updates.split(',').map(str::parse).collect::<Result<_, _>>()?,
                since: since.parse()?,
            },
            _ => return Err(BadCall("a call")),
        })
    }
}
