use crate::raw::{self, Handle};
use crate::refusal::done;
use crate::{reply, Moment, OwnedState, Published, Refusal, Resolver, Segment, Values};
use std::cell::UnsafeCell;
use std::fmt;

/// The bytes that a line may have.
const LONGEST: usize = 4_194_304;

/// What governs at a moment. It borrows the reader's last answer.
#[derive(Clone, Debug, PartialEq, Eq)]
pub struct State<'a> {
    /// The event's id; none where nothing governs.
    pub event: Option<&'a str>,
    /// The interval's own id; none where nothing governs.
    pub interval: Option<i64>,
    /// The first later instant at which the state names another interval or none; none where there is no such instant.
    pub until: Option<Moment>,
    /// The values of the interval's first payload of the type; none where nothing governs.
    pub values: Values<'a>,
}

/// Answers queries from one publication, until it looks again.
///
/// A clone sees the same publication, so each thread may have a reader of its own:
///
/// ```
/// # use kuvteleg::{Refusal, Resolver, Tie};
/// let mut resolver = Resolver::new(Tie::Newest)?;
/// let published = resolver.publish()?;
/// let reader = resolver.reader()?;
/// std::thread::scope(|threads| {
///     for _ in 0..2 {
///         let mut mine = reader.clone();
///         threads.spawn(move || assert_eq!(mine.seen(), Ok(published)));
///     }
/// });
/// # Ok::<(), Refusal>(())
/// ```
///
/// It is `Send` and not `Sync`: threads share one behind a lock, or take a clone each.
///
/// ```compile_fail
/// fn shared_by_threads<T: Sync>() {}
/// shared_by_threads::<kuvteleg::Reader>();
/// ```
pub struct Reader {
    // A share is taken of a reader that is only borrowed; since it is not `Sync`, no other call has the handle then.
    raw: UnsafeCell<Handle>,
    answer: Vec<u8>,
}

// SAFETY: the library ties a reader to no thread, and each call has the handle to itself: those that take `&mut self`, and `share`, since
// a `Reader` is not `Sync`.
unsafe impl Send for Reader {}

impl Reader {
    pub(crate) fn closed() -> Reader {
        Reader { raw: UnsafeCell::new(Handle::CLOSED), answer: Vec::new() }
    }

    /// Sees the resolver's last publication from now on.
    ///
    /// It has the resolver to itself, so the thread that edits is the one that looks. Other threads take a clone of a reader that
    /// looked, which that thread keeps behind a lock.
    pub fn look(&mut self, resolver: &mut Resolver) -> Result<(), Refusal> {
        // SAFETY: both handles are lent to this call alone.
        done(unsafe { raw::kuvteleg_look(&mut resolver.raw, self.raw.get_mut()) })
    }

    /// The publication that it sees.
    pub fn seen(&mut self) -> Result<Published, Refusal> {
        let (mut number, mut version) = (0, 0);
        // SAFETY: the handle is lent to this call alone.
        done(unsafe { raw::kuvteleg_seen(self.raw.get_mut(), &mut number, &mut version) })?;
        Ok(Published { number, version })
    }

    /// Another reader of the same publication.
    pub fn share(&self) -> Result<Reader, Refusal> {
        let mut reader = Reader::closed();
        // SAFETY: no other call has this reader's handle, since a `Reader` is not `Sync`; the other one is new.
        done(unsafe { raw::kuvteleg_share(self.raw.get(), reader.raw.get_mut()) })?;
        Ok(reader)
    }

    /// What governs a resource under a payload type at a moment.
    ///
    /// # Errors
    ///
    /// [`Refusal::BadMoment`], [`Refusal::BadId`], [`Refusal::BadText`] of a payload type that isn't 1 to 128 characters,
    /// [`Refusal::UnknownResource`], [`Refusal::NoMemory`].
    pub fn at(&mut self, resource: &str, payload_type: &str, moment: impl Into<Moment>) -> Result<State<'_>, Refusal> {
        let (raw, moment): (*mut Handle, Moment) = (self.raw.get_mut(), moment.into());
        let mut state = raw::State::default();
        // SAFETY: the handle is lent to these calls alone, the texts are slices, and the room is the answer's own, which overlaps none.
        unsafe {
            raw::gather(
                &mut self.answer,
                |out, room, len| {
                    raw::kuvteleg_governor(
                        raw,
                        resource.as_ptr(),
                        resource.len(),
                        payload_type.as_ptr(),
                        payload_type.len(),
                        moment.seconds(),
                        moment.nanoseconds(),
                        &mut state,
                        out,
                        room,
                        len,
                    )
                },
                |out, room, len| raw::kuvteleg_answer(raw, out, room, len),
            )
        }?;
        let (event, values) = raw::text(&self.answer).split_at(state.event_len);
        let is_governed = state.is_governed != 0;
        Ok(State {
            event: is_governed.then_some(event),
            interval: is_governed.then_some(state.interval),
            until: (state.is_endless == 0).then(|| Moment::new(state.until_seconds, state.until_nanoseconds)),
            values: Values(if is_governed { values } else { "[]" }),
        })
    }

    /// The segments of the window from `from` to before `to`, in order of time and cut to it. Stretches at which nothing governs have
    /// none.
    ///
    /// ```
    /// # use kuvteleg::{Kind, Moment, Refusal, Resolver, Tie, Value};
    /// # let midnight = Moment::new(1_704_067_200, 0);
    /// # let mut resolver = Resolver::new(Tie::Newest)?;
    /// # resolver.create(midnight, Kind::Program, "p1", r#"{"programName":"P"}"#)?;
    /// # resolver.create(midnight, Kind::Ven, "v1", r#"{"venName":"V"}"#)?;
    /// # resolver.create(midnight, Kind::Resource, "r1", r#"{"resourceName":"R","venID":"v1"}"#)?;
    /// # let event = r#"{"programID":"p1","intervalPeriod":{"start":"2024-01-01T00:00:00Z","duration":"PT1H"},"intervals":[
    /// #     {"payloads":[{"type":"PRICE","values":[0.170]}]},{"payloads":[{"type":"PRICE","values":[0.25]}]}]}"#;
    /// # resolver.create(midnight, Kind::Event, "e1", event)?;
    /// # resolver.publish()?;
    /// let mut reader = resolver.reader()?;
    /// let segments = reader.list("r1", "PRICE", midnight, Moment::new(1_704_153_600, 0))?; // a day
    /// assert_eq!(segments.len(), 2);
    /// assert_eq!((segments[1].event.as_str(), segments[1].interval), ("e1", 1));
    /// assert_eq!(segments[1].end.to_string(), "2024-01-01T02:00:00Z");
    /// assert_eq!(segments[1].values, [Value::Number("0.25".into())]);
    /// # Ok::<(), Refusal>(())
    /// ```
    ///
    /// # Errors
    ///
    /// [`Refusal::LongLine`]; [`Refusal::BadLine`] of a resource or type that is empty or holds a space, a line feed or a carriage return,
    /// so that no line has it as a word; [`Refusal::BadMoment`], [`Refusal::BadId`], [`Refusal::BadText`], [`Refusal::BadWindow`] where
    /// `from` isn't before `to`, [`Refusal::UnknownResource`], [`Refusal::NoMemory`].
    pub fn list(
        &mut self,
        resource: &str,
        payload_type: &str,
        from: impl Into<Moment>,
        to: impl Into<Moment>,
    ) -> Result<Vec<Segment>, Refusal> {
        self.ask(&["list", resource, payload_type], &[from.into(), to.into()]).map(reply::segments)
    }

    /// The id of each resource and its state under a payload type at a moment, in order of creation.
    ///
    /// ```
    /// # use kuvteleg::{Kind, Moment, Refusal, Resolver, Tie};
    /// # let midnight = Moment::new(1_704_067_200, 0);
    /// # let mut resolver = Resolver::new(Tie::Newest)?;
    /// # resolver.create(midnight, Kind::Ven, "v1", r#"{"venName":"V"}"#)?;
    /// resolver.create(midnight, Kind::Resource, "r2", r#"{"resourceName":"R","venID":"v1"}"#)?;
    /// resolver.create(midnight, Kind::Resource, "r1", r#"{"resourceName":"R","venID":"v1"}"#)?;
    /// resolver.publish()?;
    /// let roll = resolver.reader()?.roll("PRICE", midnight)?;
    /// let ids: Vec<&str> = roll.iter().map(|(resource, _)| resource.as_str()).collect();
    /// assert_eq!(ids, ["r2", "r1"]);
    /// assert_eq!((&roll[0].1.event, roll[0].1.until), (&None, None));
    /// # Ok::<(), Refusal>(())
    /// ```
    ///
    /// # Errors
    ///
    /// [`Refusal::LongLine`]; [`Refusal::BadLine`] of a type that is no word of a line, as of [`list`](Reader::list);
    /// [`Refusal::BadMoment`], [`Refusal::BadText`], [`Refusal::NoMemory`].
    pub fn roll(&mut self, payload_type: &str, moment: impl Into<Moment>) -> Result<Vec<(String, OwnedState)>, Refusal> {
        self.ask(&["roll", payload_type], &[moment.into()]).map(reply::roll)
    }

    /// The payload types under which the resource is governed at some time: those of the standard in its order, then private ones.
    ///
    /// ```
    /// # use kuvteleg::{Kind, Moment, Refusal, Resolver, Tie};
    /// # let midnight = Moment::new(1_704_067_200, 0);
    /// # let mut resolver = Resolver::new(Tie::Newest)?;
    /// # resolver.create(midnight, Kind::Program, "p1", r#"{"programName":"P"}"#)?;
    /// # resolver.create(midnight, Kind::Ven, "v1", r#"{"venName":"V"}"#)?;
    /// # resolver.create(midnight, Kind::Resource, "r1", r#"{"resourceName":"R","venID":"v1"}"#)?;
    /// let event = r#"{"programID":"p1","intervals":[{"intervalPeriod":{"start":"2024-01-01T00:00:00Z","duration":"PT1H"},
    ///     "payloads":[{"type":"my \"own\"","values":[]},{"type":"PRICE","values":[17]}]}]}"#;
    /// resolver.create(midnight, Kind::Event, "e1", event)?;
    /// resolver.publish()?;
    /// assert_eq!(resolver.reader()?.types("r1")?, ["PRICE", "my \"own\""]);
    /// # Ok::<(), Refusal>(())
    /// ```
    ///
    /// # Errors
    ///
    /// [`Refusal::LongLine`]; [`Refusal::BadLine`] of a resource that is no word of a line, as of [`list`](Reader::list);
    /// [`Refusal::BadId`], [`Refusal::UnknownResource`], [`Refusal::NoMemory`].
    pub fn types(&mut self, resource: &str) -> Result<Vec<String>, Refusal> {
        self.ask(&["types", resource], &[]).map(reply::types)
    }

    /// The answer to the query of these words and then these moments.
    fn ask(&mut self, words: &[&str], moments: &[Moment]) -> Result<&str, Refusal> {
        let mut line = words.join(" ");
        for moment in moments {
            line.push_str(&format!(" {moment}"));
        }
        if line.len() > LONGEST {
            Err(Refusal::LongLine)
        } else if words.iter().any(|it| it.is_empty() || it.contains([' ', '\n', '\r'])) {
            Err(Refusal::BadLine)
        } else if moments.iter().all(Moment::is_taken) {
            self.line(line)
        } else {
            Err(Refusal::BadMoment)
        }
    }

    /// The answer to a query of the script: `at`, `list`, `roll` or `types`. It ends with a line feed.
    pub fn line(&mut self, line: impl AsRef<[u8]>) -> Result<&str, Refusal> {
        let (raw, line): (*mut Handle, &[u8]) = (self.raw.get_mut(), line.as_ref());
        // SAFETY: the handle is lent to these calls alone, `line` is a slice, and the room is the answer's own, which overlaps neither.
        unsafe {
            raw::gather(
                &mut self.answer,
                |out, room, len| raw::kuvteleg_ask(raw, line.as_ptr(), line.len(), out, room, len),
                |out, room, len| raw::kuvteleg_answer(raw, out, room, len),
            )
        }?;
        Ok(raw::text(&self.answer))
    }
}

/// A share, which takes no more memory than a reader's own; the program ends where that is refused, as it does at other clones. To be
/// told of it call [`share`](Reader::share).
impl Clone for Reader {
    fn clone(&self) -> Reader {
        self.share().expect("memory for a reader")
    }
}

/// Tells none of what it holds.
impl fmt::Debug for Reader {
    fn fmt(&self, out: &mut fmt::Formatter<'_>) -> fmt::Result {
        out.debug_struct("Reader").finish_non_exhaustive()
    }
}

impl Drop for Reader {
    fn drop(&mut self) {
        // SAFETY: the handle is lent to this call alone, and not used after it.
        unsafe { raw::kuvteleg_leave(self.raw.get_mut()) };
    }
}
