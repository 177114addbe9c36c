#![doc = include_str!("../README.md")]
#![cfg_attr(not(feature = "std"), no_std)]
#![deny(missing_docs)]
mod callers;
mod calls;
mod cells;
mod ffi;
mod judge;
mod replies;
mod waiting;

pub use callers::{Caller, Hold};
pub use calls::{Call, Console, LockKind, Object, Pool, Queue, Sched};
pub use cells::{Cell, Log};
pub use judge::{audit, merge, EntryId, Fault};
pub use replies::{Answer, Error, Page, Refusal, Reply};
