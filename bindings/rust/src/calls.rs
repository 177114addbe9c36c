//! The four kinds of objects, and the calls on each.
use crate::ffi::{CallWords, Opening};
use crate::{Page, Reply};
use core::{fmt, marker::PhantomData};

/// The lock of a cell. Callers wait in FIFO order: at a `Ticket` lock all of them read one word, at an `Mcs` lock each reads a
/// word of its own, which is for many that wait at once. Use `Ticket` unless you have measured.
#[derive(Clone, Copy, Debug, PartialEq, Eq)]
#[allow(missing_docs)]
pub enum LockKind { Ticket, Mcs }

/// The four kinds of objects, around which a cell can be opened. No other type can implement it.
pub trait Object: sealed::Opens {}
mod sealed {
    pub trait Opens {
        fn opening(&self, lock: super::LockKind, cpus: u32, events: u32) -> super::Opening;
    }
}

/// A call on an object of kind `K`, which returns a `T` unless the object refuses it. `Display` writes it as records have it.
///
/// ```
/// use mc2::{Cell, Console, Error, LockKind, Pool, Refusal, Sched};
///
/// let pool = Cell::open(Pool { pages: 2, quotas: [1; 16] }, LockKind::Mcs, 1, 0)?;
/// let mut caller = pool.caller().expect("CPU 0");
/// let page = caller.call(Pool::alloc(3))?;
/// assert_eq!(caller.call(Pool::alloc(3)), Err(Error::Refused(Refusal::OverQuota)));
/// assert_eq!(caller.call(Pool::free(4, page)), Err(Error::Refused(Refusal::NotYours)));
///
/// let console = Cell::open(Console { bytes: 1 }, LockKind::Ticket, 1, 0)?;
/// let mut caller = console.caller().expect("CPU 0");
/// assert_eq!((caller.call(Console::put(7))?, caller.call(Console::put(255))?), (None, Some(7)));
/// assert_eq!((caller.call(Console::get())?, caller.call(Console::level())?), (255, 0));
///
/// let sched = Cell::open(Sched { threads: 2, channels: 1 }, LockKind::Ticket, 1, 0)?;
/// let mut caller = sched.caller().expect("CPU 0");
/// let mut hold = caller.acquire();
/// hold.apply(Sched::sleep(0, 1))?;
/// assert_eq!((hold.apply(Sched::wakeall(0))?, hold.apply(Sched::next())?), (1, 1));
/// # Ok::<(), Error>(())
/// ```
#[derive(Clone, Copy, Debug, PartialEq, Eq)]
pub struct Call<K, T = Reply>(pub(crate) CallWords, pub(crate) PhantomData<fn() -> (K, T)>);
impl<K, T> Call<K, T> {
    /// Returns the same call with any reply as its answer: batches have calls of this type.
    pub fn any(&self) -> Call<K> { Call(self.0, PhantomData) }
}
impl<K, T> fmt::Display for Call<K, T> {
    fn fmt(&self, f: &mut fmt::Formatter) -> fmt::Result {
        let (name, numbers) = name_of(self.0[0]);
        f.write_str(name)?;
        self.0[1..][..numbers].iter().try_for_each(|it| write!(f, " {it}"))
    }
}

macro_rules! kinds {
    ($($about:literal $kind:ident { $($field:ident: $of:ty, $range:literal),* } = $place:literal, $size:ident, $channels:expr,
        $quotas:expr; { $($word:literal $name:ident($($number:ident: $type:ty),*) -> $answer:ty: $doc:literal)* })*) => {
        $(#[doc = $about]
        #[derive(Clone, Copy, Debug, PartialEq, Eq)]
        pub struct $kind { $(#[doc = $range] pub $field: $of),* }
        impl Object for $kind {}
        impl sealed::Opens for $kind {
            fn opening(&self, lock: LockKind, cpus: u32, events: u32) -> Opening {
                let ($kind { $($field),* }, mut opening) = (*self, [0; 22]);
                opening[..6].copy_from_slice(&[lock as u32, $place, events, cpus, $size, $channels]);
                opening[6..].copy_from_slice(&$quotas);
                opening
            }
        }
        impl $kind {
            $(#[doc = $doc]
            pub fn $name($($number: $type),*) -> Call<$kind, $answer> {
                let numbers: &[u32] = &[$($number.into()),*];
                Call([$word, *numbers.first().unwrap_or(&0), *numbers.get(1).unwrap_or(&0)], PhantomData)
            })*
        })*
        // The name of a call in records, and the number of its arguments.
        fn name_of(word: u32) -> (&'static str, usize) {
            match word {
                $($($word => (stringify!($name), <[&str]>::len(&[$(stringify!($number)),*])),)*)*
                _ => ("", 0),
            }
        }
    };
}
kinds! {
    "A FIFO queue of threads, numbered from 0. Each thread is in it once at most."
    Queue { threads: u32, "The number of threads: 1 to 1,024." } = 0, threads, 0, [0; 16]; {
        0 enq(thread: u32) -> (): "Appends a thread. Refused: `BadThread`; `Already` if it is in the queue."
        1 deq() -> u32: "Removes the first thread and returns it. Refused: `Empty`."
        2 remove(thread: u32) -> (): "Removes a thread, wherever it is. Refused: `BadThread`; `Absent` if it isn't in the queue."
        3 len() -> u32: "Counts the threads in the queue."
    }
    "A pool of pages, numbered from 0. Each page is free, or has one of the owners 0 to 15."
    Pool { pages: u32, "The number of pages: 1 to 4,096.", quotas: [u32; 16], "How many pages each owner may have: 0 to 4,096." }
    = 1, pages, 0, quotas; {
        4 alloc(owner: u32) -> Page: "Allocates the free page of the lowest number. Refused: `BadOwner`, `NoPage`, `OverQuota`."
        5 free(owner: u32, page: Page) -> (): "Frees a page of an owner. Refused: `BadOwner`, `BadPage`, `NotTaken`, `NotYours`."
        6 left() -> u32: "Counts the free pages."
    }
    "A ring buffer of bytes."
    Console { bytes: u32, "Its capacity in bytes: 1 to 4,096." } = 2, bytes, 0, [0; 16]; {
        7 put(byte: u8) -> Option<u8>: "Appends a byte. A full ring drops its oldest byte, and returns it."
        8 get() -> u8: "Removes the oldest byte and returns it. Refused: `Empty`."
        9 level() -> u32: "Counts the bytes in the ring."
    }
    "A ready queue of threads, with channels on which threads sleep. Both are numbered from 0. Each thread is in one place at most."
    Sched { threads: u32, "The number of threads: 1 to 1,024.", channels: u32, "The number of channels: 1 to 64." }
    = 3, threads, channels, [0; 16]; {
        10 ready(thread: u32) -> (): "Appends a thread to the ready queue. Refused: `BadThread`; `Already` if it is ready or asleep."
        11 next() -> u32: "Removes the first ready thread and returns it. Refused: `Empty`."
        12 sleep(channel: u32, thread: u32) -> (): "Puts a thread to sleep on a channel. Refused: `BadChannel`, `BadThread`, `Already`."
        13 wake(channel: u32) -> u32: "Makes the first thread of a channel ready and returns it. Refused: `BadChannel`, `Empty`."
        14 wakeall(channel: u32) -> u32: "Makes all threads of a channel ready and returns how many. Refused: `BadChannel`."
    }
}
