use crate::raw::{self, Handle};
use crate::refusal::done;
use crate::{Moment, Reader, Refusal};
use std::fmt;

/// Which of two intervals of one priority governs.
#[derive(Clone, Copy, Debug, PartialEq, Eq, Hash)]
pub enum Tie {
    /// The later write.
    Newest = 0,
    /// The interval that starts later, and of those that start together the later write.
    LatestStart = 1,
}

/// A kind of object.
#[derive(Clone, Copy, Debug, PartialEq, Eq, Hash)]
pub enum Kind {
    /// A program.
    Program = 0,
    /// An event.
    Event = 1,
    /// A ven.
    Ven = 2,
    /// A resource.
    Resource = 3,
}

/// A publication.
#[derive(Clone, Copy, Debug, PartialEq, Eq, Hash)]
pub struct Published {
    /// Counted from 1 on; number 0 is the empty book.
    pub number: u64,
    /// The number of edits that it shows.
    pub version: u64,
}

/// Programs, events, vens and resources, and what of them is published.
///
/// Nobody sees an edit before [`publish`](Resolver::publish). A refused call changes nothing.
pub struct Resolver {
    pub(crate) raw: Handle,
    reply: Vec<u8>,
}

// SAFETY: the library ties an editor to no thread, and each call has the handle to itself, since it takes `&mut self`.
unsafe impl Send for Resolver {}

impl Resolver {
    /// A resolver without objects, whose last publication is number 0.
    pub fn new(tie: Tie) -> Result<Resolver, Refusal> {
        let mut raw = Handle::CLOSED;
        // SAFETY: the handle is closed, and lent to this call alone.
        done(unsafe { raw::kuvteleg_open(&mut raw, tie as u32) })?;
        Ok(Resolver { raw, reply: Vec::new() })
    }

    /// Creates an object from its JSON body, and answers the version. The moment is what the zero starts of an event stand for.
    pub fn create(&mut self, moment: impl Into<Moment>, kind: Kind, id: &str, body: impl AsRef<[u8]>) -> Result<u64, Refusal> {
        self.write(raw::kuvteleg_create, moment.into(), kind, id, body.as_ref())
    }

    /// Puts a whole object in the place of the one with its id, and answers the version.
    pub fn change(&mut self, moment: impl Into<Moment>, kind: Kind, id: &str, body: impl AsRef<[u8]>) -> Result<u64, Refusal> {
        self.write(raw::kuvteleg_change, moment.into(), kind, id, body.as_ref())
    }

    fn write(&mut self, call: raw::Write, moment: Moment, kind: Kind, id: &str, body: &[u8]) -> Result<u64, Refusal> {
        let mut version = 0;
        // SAFETY: the handle is lent to this call alone, `id` and `body` are slices, and none of them overlaps another or `version`.
        done(unsafe {
            call(
                &mut self.raw,
                moment.seconds(),
                moment.nanoseconds(),
                kind as u32,
                id.as_ptr(),
                id.len(),
                body.as_ptr(),
                body.len(),
                &mut version,
            )
        })?;
        Ok(version)
    }

    /// Deletes an object, and answers the version.
    pub fn delete(&mut self, kind: Kind, id: &str) -> Result<u64, Refusal> {
        let mut version = 0;
        // SAFETY: the handle is lent to this call alone, and `id` is a slice.
        done(unsafe { raw::kuvteleg_delete(&mut self.raw, kind as u32, id.as_ptr(), id.len(), &mut version) })?;
        Ok(version)
    }

    /// Shows what the edits left to readers that look from now on.
    pub fn publish(&mut self) -> Result<Published, Refusal> {
        let (mut number, mut version) = (0, 0);
        // SAFETY: the handle is lent to this call alone.
        done(unsafe { raw::kuvteleg_publish(&mut self.raw, &mut number, &mut version) })?;
        Ok(Published { number, version })
    }

    /// Makes the last publication's version the base from which accepted edits are counted, and answers it: there is room for a million
    /// more. No answer changes.
    pub fn condense(&mut self) -> Result<u64, Refusal> {
        let mut version = 0;
        // SAFETY: the handle is lent to this call alone.
        done(unsafe { raw::kuvteleg_condense(&mut self.raw, &mut version) })?;
        Ok(version)
    }

    /// The reply to a line of the script, which has no line feed. The reply ends with one.
    ///
    /// ```
    /// # use kuvteleg::{Refusal, Resolver, Tie};
    /// let mut resolver = Resolver::new(Tie::Newest)?;
    /// assert_eq!(resolver.line("publish")?, "published 1 version 0\n");
    /// assert_eq!(resolver.line("publish now"), Err(Refusal::BadLine));
    /// # Ok::<(), Refusal>(())
    /// ```
    pub fn line(&mut self, line: impl AsRef<[u8]>) -> Result<&str, Refusal> {
        let (raw, line): (*mut Handle, &[u8]) = (&mut self.raw, line.as_ref());
        // SAFETY: the handle is lent to these calls alone, `line` is a slice, and the room is the reply's own, which overlaps neither.
        unsafe {
            raw::gather(
                &mut self.reply,
                |out, room, len| raw::kuvteleg_line(raw, line.as_ptr(), line.len(), out, room, len),
                |out, room, len| raw::kuvteleg_reply(raw, out, room, len),
            )
        }?;
        Ok(raw::text(&self.reply))
    }

    /// A reader of the last publication.
    pub fn reader(&mut self) -> Result<Reader, Refusal> {
        let mut reader = Reader::closed();
        reader.look(self)?;
        Ok(reader)
    }
}

/// Tells none of what it holds.
impl fmt::Debug for Resolver {
    fn fmt(&self, out: &mut fmt::Formatter<'_>) -> fmt::Result {
        out.debug_struct("Resolver").finish_non_exhaustive()
    }
}

impl Drop for Resolver {
    fn drop(&mut self) {
        // SAFETY: the handle is lent to this call alone, and not used after it.
        unsafe { raw::kuvteleg_close(&mut self.raw) };
    }
}
