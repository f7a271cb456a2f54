//! Kuvteleg: which interval of which OpenADR 3.0 event governs a resource, and until when.
//!
//! The proved library in this process. A [`Resolver`] takes edits and publishes; a [`Reader`] answers queries from one publication. The
//! repository's docs/SCRIPT.md has every rule: bodies, what governs, refusals, limits.
//!
//! ```
//! use kuvteleg::{Kind, Moment, Resolver, Tie, Value};
//!
//! # fn main() -> Result<(), kuvteleg::Refusal> {
//! let midnight = Moment::new(1_704_067_200, 0); // 2024-01-01T00:00:00Z
//! let mut resolver = Resolver::new(Tie::Newest)?;
//! resolver.create(midnight, Kind::Program, "p1", r#"{"programName":"P"}"#)?;
//! resolver.create(midnight, Kind::Ven, "v1", r#"{"venName":"V"}"#)?;
//! resolver.create(midnight, Kind::Resource, "r1", r#"{"resourceName":"R","venID":"v1"}"#)?;
//! let event = r#"{"programID":"p1","intervals":[{"id":0,
//!     "intervalPeriod":{"start":"2024-01-01T00:00:00Z","duration":"PT1H"},
//!     "payloads":[{"type":"PRICE","values":[0.170]}]}]}"#;
//! let version = resolver.create(midnight, Kind::Event, "e1", event)?;
//! assert_eq!(version, 4);
//! resolver.publish()?;
//!
//! let mut reader = resolver.reader()?;
//! let state = reader.at("r1", "PRICE", Moment::new(1_704_069_000, 0))?;
//! assert_eq!(state.event, Some("e1"));
//! assert_eq!(state.until.unwrap().to_string(), "2024-01-01T01:00:00Z");
//! assert_eq!(state.values.as_json(), "[0.17]");
//! assert_eq!(state.values.read(), [Value::Number("0.17".into())]);
//! # Ok(())
//! # }
//! ```
//!
//! # Threads and memory
//!
//! A [`Resolver`] and a [`Reader`] may each go to another thread, and a call has each to itself. A reader's answers wait for no edit. It
//! may outlive its resolver, and keeps its publication in memory until it looks again or is dropped. A call for which there is no memory
//! answers [`Refusal::NoMemory`] and has changed nothing; only what this crate keeps of a query or a reply, and the clone of a reader, end
//! the program then.
//!
//! No call is made from a signal handler, nor in a forked child of a process with threads.
mod moment;
mod raw;
mod reader;
mod refusal;
mod reply;
mod resolver;
mod value;

pub use moment::Moment;
pub use reader::{Reader, State};
pub use refusal::Refusal;
pub use reply::{OwnedState, Segment};
pub use resolver::{Kind, Published, Resolver, Tie};
pub use value::{Value, Values};
