//! Replies of objects, answers, refusals and errors.
use crate::ffi::ReplyWords;
use core::fmt;

/// A page of a pool, numbered from 0.
#[derive(Clone, Copy, Debug, PartialEq, Eq, PartialOrd, Ord, Hash)]
pub struct Page(pub u32);
impl From<Page> for u32 {
    fn from(page: Page) -> u32 { page.0 }
}

macro_rules! refusals {
    ($($name:ident $word:literal),*) => {
        /// Why an object refused a call. The refused call changed nothing, and is in the log. Each call lists its refusals.
        #[derive(Clone, Copy, Debug, PartialEq, Eq)]
        #[allow(missing_docs)]
        pub enum Refusal { $($name),* }
        const REFUSALS: [Refusal; 12] = [$(Refusal::$name),*];
        const WORDS: [&str; 18] = ["ok", "thread", "count", "page", "dropped", "byte", $($word),*];
    };
}
refusals! {
    BadThread "badthread", Already "already", Empty "empty", Absent "absent", BadOwner "badowner", NoPage "none", OverQuota
    "overquota", BadPage "badpage", NotTaken "nottaken", NotYours "notyours", BadChannel "badchannel", BadCall "badcall"
}

/// The reply of an object to a call. `Display` writes it as records have it.
#[derive(Clone, Copy, Debug, PartialEq, Eq)]
pub struct Reply(pub(crate) ReplyWords);
impl Reply {
    /// Returns the answer if it has this type. Errors: `Refused`; `Unexpected` if it has another type.
    pub fn answer<T: Answer>(self) -> Result<T, Error> {
        let refusal = REFUSALS.get((self.0[0] as usize).wrapping_sub(6));
        T::of(self).ok_or(refusal.map_or(Error::Unexpected(self.0[0]), |why| Error::Refused(*why)))
    }
}
impl fmt::Display for Reply {
    fn fmt(&self, f: &mut fmt::Formatter) -> fmt::Result {
        let [word, number] = self.0;
        f.write_str(WORDS.get(word as usize).unwrap_or(&""))?;
        if (1..6).contains(&word) { write!(f, " {number}") } else { Ok(()) }
    }
}

/// The types of answers: `()` for a call that has none, a thread or a count, a byte, a page, or any reply.
pub trait Answer: Sized {
    #[doc(hidden)]
    fn of(reply: Reply) -> Option<Self>;
}
macro_rules! answers {
    ($($type:ty: $it:pat => $answer:expr;)*) => { $(impl Answer for $type { fn of($it: Reply) -> Option<Self> { $answer } })* };
}
answers! {
    (): Reply([word, _]) => (word == 0).then_some(());
    u32: Reply([word, number]) => (word == 1 || word == 2).then_some(number);
    Page: Reply([word, number]) => (word == 3).then_some(Page(number));
    Option<u8>: Reply([word, number]) => (word == 0 || word == 4).then_some((word == 4).then_some(number as u8));
    u8: Reply([word, number]) => (word == 5).then_some(number as u8);
    Reply: reply => Some(reply);
}

/// Why there is no answer. Unless the object refused the call, nothing was done.
#[derive(Clone, Copy, Debug, PartialEq, Eq)]
pub enum Error {
    /// The object refused the call, which is in the log.
    Refused(Refusal),
    /// The log is full, and stays full.
    LogFull,
    /// A try: another caller holds the lock or is in line for it. Closing: a caller was leaked, for example by `mem::forget`.
    Busy,
    /// Opening: the allocator had no memory.
    NoMemory,
    /// Opening: a number is out of range. A batch: it has 0 or more than 8 calls.
    BadParam,
    /// The answer has another type, or the library returned a result that no use of this crate causes.
    Unexpected(u32),
}
impl core::error::Error for Error {}
impl fmt::Display for Error {
    fn fmt(&self, f: &mut fmt::Formatter) -> fmt::Result { write!(f, "{self:?}") }
}
