//! Cells, and the log of a closed cell.
use crate::ffi::*;
use crate::waiting::Waiters;
use crate::{Call, Caller, Error, LockKind, Object, Reply};
use core::fmt::{self, Display, Write};
use core::marker::PhantomData;

/// An object behind a lock. Threads may share it.
pub struct Cell<K> { log: Log<K>, pub(crate) idle: Idle, pub(crate) waiters: Waiters }
// SAFETY: a shared cell gives access only to atomics. Its handle is used only with the cell itself.
unsafe impl<K> Sync for Cell<K> {}

impl<K: Object> Cell<K> {
    /// Opens a cell around a new object, for 1 to 64 CPUs. All memory is allocated here.
    ///
    /// `events` is the capacity of the log, 1 to 65,536: a full log stays full, and every later call returns `LogFull`. With 0 no
    /// log is kept, and it has room for 2^64 - 1 events. Errors: `NoMemory`; `BadParam`: a number is out of range.
    pub fn open(object: K, lock: LockKind, cpus: u32, events: u32) -> Result<Cell<K>, Error> {
        let (opening, idle, mut cell) = (object.opening(lock, cpus, events), Idle::new(), CellHandle::new()?);
        done(mc2_handle_open_cell(&mut cell, &opening))?;
        // The library creates the caller of the highest CPU first.
        for cpu in (0..cpus).rev() {
            let mut caller = CallerHandle::new()?;
            done(mc2_handle_open_caller(&mut cell, &mut caller))?;
            idle.put(cpu, caller);
        }
        Ok(Cell { log: Log { cell, opening, kind: PhantomData }, idle, waiters: Waiters::default() })
    }
    /// Returns the caller of a CPU, from 0, or `None` if it is in use or there is no such CPU.
    pub fn caller_of(&self, cpu: u32) -> Option<Caller<'_, K>> {
        self.idle.take(cpu).map(|handle| Caller::new(self, cpu, handle))
    }
    /// Returns the caller of the lowest CPU whose caller isn't in use, or `None` if all are.
    pub fn caller(&self) -> Option<Caller<'_, K>> { (0..64).find_map(|cpu| self.caller_of(cpu)) }
    /// Closes the cell and frees its callers. Returns its log. Error: `Busy` if a caller was leaked; the log is then lost.
    pub fn close(self) -> Result<Log<K>, Error> {
        let Cell { mut log, idle, .. } = self;
        // Callers are returned in ascending order of CPU.
        for cpu in 0..log.opening[3] {
            let mut caller = idle.take(cpu).ok_or(Error::Busy)?;
            // SAFETY: each caller in `idle` is a caller of this cell.
            done(unsafe { mc2_handle_return_caller(&mut log.cell, &mut caller) })?;
        }
        done(mc2_handle_close_cell(&mut log.cell)).map(|()| log)
    }
}

/// The log of a closed cell.
pub struct Log<K> { cell: CellHandle, opening: Opening, kind: PhantomData<fn() -> K> }

impl<K> Log<K> {
    /// Reads one step of the log: its CPU, call and reply. Both numbers count from 0, and an event has 1 to 8 steps. Returns `None`
    /// if there is no such step, or the log isn't kept.
    pub fn read_step(&mut self, event: usize, index: usize) -> Option<(u32, Call<K>, Reply)> {
        let mut step = [0; 6];
        done(mc2_handle_read_step(&mut self.cell, event, index, &mut step)).ok()?;
        let [cpu, word, first, second, reply, number] = step;
        Some((cpu, Call([word, first, second], PhantomData), Reply([reply, number])))
    }
    /// Writes the record of the cell.
    ///
    /// `name` is the object's: 1 to 16 lower-case letters and digits, the first a letter. `entries[cpu]` are that CPU's entries in
    /// their order, each as `1 deq | deq = thread 3` or `1 deq | noroom`: the looks, the calls, and the steps. With another name,
    /// or if the log isn't kept, the judge returns `BadLine` for the record.
    pub fn write_record<E: Display>(&mut self, to: &mut impl Write, name: &str, entries: &[impl AsRef<[E]>]) -> fmt::Result {
        let [lock, kind, limit, _, size, ..] = self.opening.map(|it| it as usize);
        let (lock, word) = (["ticket", "mcs"][lock], ["queue", "pool", "console", "sched"][kind]);
        write!(to, "record 2\ncpus {}\nobjects 1\nobject {name} {lock} {limit} {word} {size}", entries.len())?;
        self.opening[[6..6, 6..22, 6..6, 5..6][kind].clone()].iter().try_for_each(|it| write!(to, " {it}"))?;
        let events = (0..).take_while(|&event| self.read_step(event, 0).is_some()).count();
        write!(to, "\nlog {name} {events}")?;
        for (event, index) in (0..events).flat_map(|event| (0..8).map(move |index| (event, index))) {
            match self.read_step(event, index) {
                Some((cpu, call, reply)) if index == 0 => write!(to, "\n{cpu} {call} = {reply}")?,
                Some((_, call, reply)) => write!(to, " ; {call} = {reply}")?,
                None => (),
            }
        }
        for (cpu, list) in entries.iter().map(|it| it.as_ref()).enumerate() {
            write!(to, "\ncpu {cpu} {}", list.len())?;
            list.iter().try_for_each(|it| write!(to, "\n{name} {it}"))?;
        }
        to.write_str("\nend\n")
    }
}
