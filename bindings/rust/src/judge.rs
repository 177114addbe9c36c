//! The judge of records, by libjudge.a.
use core::fmt;

/// An entry of a record: its CPU, and its index among that CPU's entries, both from 0.
#[repr(C)]
#[derive(Clone, Copy, Debug, Default, PartialEq, Eq)]
#[allow(missing_docs)]
pub struct EntryId { pub cpu: u64, pub entry: u64 }

#[repr(C)]
#[derive(Default)]
struct Report { kind: u32, numbers: [u64; 3] }

// As include/mc2_judge.h declares them.
unsafe extern "C" {
    fn mc2_audit(text: *const u8, length: usize, report: &mut Report);
    fn mc2_merge(text: *const u8, length: usize, order: *mut EntryId, capacity: usize, report: &mut Report);
}

macro_rules! faults {
    ($($kind:literal $name:ident { $($number:ident),* } $doc:literal)*) => {
        /// Why a text isn't a sound record, or has no order. Objects, events, steps, CPUs and entries are numbered from 0.
        #[derive(Clone, Copy, Debug, PartialEq, Eq)]
        #[allow(missing_docs)]
        pub enum Fault { $(#[doc = $doc] $name { $($number: u64),* },)* }
        fn judged(Report { kind, numbers }: Report) -> Result<usize, Fault> {
            let mut numbers = numbers.into_iter();
            match kind {
                0 => Ok(numbers.next().unwrap_or(0) as usize),
                $($kind => Err(Fault::$name { $($number: numbers.next().unwrap_or(0)),* }),)*
                _ => Err(Fault::OutOfMemory {}),
            }
        }
    };
}
faults! {
    1 TooLong { object } "A log has more events than its limit."
    2 WrongStep { object, event, step } "A step has a wrong reply, or follows a step of its event that refused."
    3 RoomWasLeft { cpu, entry } "An entry says that the log had no room, but it had."
    4 NotItsEvent { cpu, entry } "An entry's steps aren't those of the CPU's next event on that object, or there is no next one."
    5 NotAsked { cpu, entry } "An entry's steps aren't the calls that were asked for."
    6 Unclaimed { object, event } "An event has no entry."
    7 Cycle { entries } "`merge`: the record is sound, but its entries have no order. The first `entries` of `order` wait for one another."
    8 BadLine { line } "The text isn't a record: the first line, from 1, that can't follow the lines before it."
    9 OutOfMemory {} "The allocator had no memory."
    10 NoRoom { entries } "`merge`: `order` needs that many places. Nothing was written to it."
}

impl core::error::Error for Fault {}
impl fmt::Display for Fault {
    fn fmt(&self, f: &mut fmt::Formatter) -> fmt::Result { write!(f, "{self:?}") }
}

/// Judges a text: returns `Ok` if it is a sound record, and its first fault otherwise. At any time it has allocated at most 4 bytes
/// for each byte of the text and 1,100,000 more, and it frees all of it. These figures are measured, not proved.
pub fn audit(text: &(impl AsRef<[u8]> + ?Sized)) -> Result<(), Fault> {
    let (text, mut report) = (text.as_ref(), Report::default());
    // SAFETY: a slice's pointer isn't null, nobody writes to a borrowed text, and the library keeps nothing.
    unsafe { mc2_audit(text.as_ptr(), text.len(), &mut report) };
    judged(report).map(|_| ())
}

/// Writes the entries of a record to `order`, and returns them: the entries of a CPU in its order, the entries of an object in the
/// order of its log. A record has at most 640,000 entries. It allocates memory as [`audit`] does.
pub fn merge<'a>(text: &(impl AsRef<[u8]> + ?Sized), order: &'a mut [EntryId]) -> Result<&'a [EntryId], Fault> {
    let (text, mut report) = (text.as_ref(), Report::default());
    // SAFETY: as in `audit`, and nobody else uses `order`.
    unsafe { mc2_merge(text.as_ptr(), text.len(), order.as_mut_ptr(), order.len(), &mut report) };
    judged(report).map(|entries| &order[..entries])
}
