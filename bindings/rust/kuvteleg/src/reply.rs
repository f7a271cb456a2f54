//! The replies to `list`, `roll` and `types`, read as docs/SCRIPT.md has them written.
use crate::value::unquoted;
use crate::{Moment, Value};

/// A longest stretch of a window that one interval governs.
#[derive(Clone, Debug, PartialEq, Eq)]
pub struct Segment {
    /// Its first instant.
    pub start: Moment,
    /// The first instant after it.
    pub end: Moment,
    /// The event's id.
    pub event: String,
    /// The interval's own id.
    pub interval: i64,
    /// The values of the interval's first payload of the type.
    pub values: Vec<Value>,
}

/// What governs at a moment, as a [`State`](crate::State) that borrows nothing.
#[derive(Clone, Debug, PartialEq, Eq)]
pub struct OwnedState {
    /// The event's id; none where nothing governs.
    pub event: Option<String>,
    /// The interval's own id; none where nothing governs.
    pub interval: Option<i64>,
    /// The first later instant at which the state names another interval or none; none where there is no such instant.
    pub until: Option<Moment>,
    /// The values of the interval's first payload of the type; none where nothing governs.
    pub values: Vec<Value>,
}

pub(crate) fn segments(reply: &str) -> Vec<Segment> {
    read(reply, |line| {
        let (start, end) = (line.moment()?, line.moment()?);
        let (event, interval) = line.governor()?;
        Some(Segment { start, end, event, interval, values: line.values()? })
    })
}

pub(crate) fn roll(reply: &str) -> Vec<(String, OwnedState)> {
    read(reply, |line| Some((line.word().to_owned(), line.state()?)))
}

pub(crate) fn types(reply: &str) -> Vec<String> {
    read(reply, |line| if line.rest.starts_with('"') { unquoted(line.rest) } else { Some(line.rest.to_owned()) })
}

/// What each line tells between the first, which has the version, and the last, which is `.`; a type may be `.` too.
fn read<T>(reply: &str, tell: impl Fn(&mut Line<'_>) -> Option<T>) -> Vec<T> {
    let lines = reply.strip_suffix(".\n").map(|it| it.split_terminator('\n').skip(1));
    let told = lines.and_then(|lines| lines.map(|rest| tell(&mut Line { rest })).collect());
    told.expect("the library's own reply")
}

/// What is left of a line.
struct Line<'a> {
    rest: &'a str,
}

impl<'a> Line<'a> {
    /// The next word. What is left begins with the space behind it.
    fn word(&mut self) -> &'a str {
        let rest = self.rest.strip_prefix(' ').unwrap_or(self.rest);
        let (word, rest) = rest.split_at(rest.find(' ').unwrap_or(rest.len()));
        self.rest = rest;
        word
    }

    fn pass(&mut self, word: &str) -> Option<()> {
        (self.word() == word).then_some(())
    }

    fn moment(&mut self) -> Option<Moment> {
        Moment::of_word(self.word())
    }

    fn governor(&mut self) -> Option<(String, i64)> {
        self.pass("event")?;
        let event = self.word().to_owned();
        self.pass("interval")?;
        Some((event, self.word().parse().ok()?))
    }

    fn until(&mut self) -> Option<Option<Moment>> {
        self.pass("until")?;
        match self.word() {
            "end" => Some(None),
            word => Moment::of_word(word).map(Some),
        }
    }

    fn values(&mut self) -> Option<Vec<Value>> {
        self.pass("values")?;
        Value::read_line(self.rest)
    }

    fn state(&mut self) -> Option<OwnedState> {
        if self.rest.starts_with(" none ") {
            self.pass("none")?;
            return Some(OwnedState { event: None, interval: None, until: self.until()?, values: Vec::new() });
        }
        let (event, interval) = self.governor()?;
        let until = self.until()?;
        Some(OwnedState { event: Some(event), interval: Some(interval), until, values: self.values()? })
    }
}
