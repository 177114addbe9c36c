//! Callers of a cell, and holds of its lock.
use crate::ffi::*;
use crate::{Answer, Call, Cell, Error, Reply};
use core::mem::{take, ManuallyDrop};

/// One CPU's right to use a cell, for one thread at a time. Dropping it returns it to its cell.
pub struct Caller<'c, K> { cell: &'c Cell<K>, cpu: u32, handle: ManuallyDrop<CallerHandle>, looks: u64, is_held: bool }

impl<'c, K> Caller<'c, K> {
    pub(crate) fn new(cell: &'c Cell<K>, cpu: u32, handle: CallerHandle) -> Caller<'c, K> {
        Caller { cell, cpu, handle: ManuallyDrop::new(handle), looks: 0, is_held: false }
    }
    /// Returns the caller's CPU, from 0.
    pub fn cpu(&self) -> u32 { self.cpu }
    /// Returns how often the caller read the lock in its last call or acquisition.
    pub fn looks(&self) -> u64 { self.looks }
    /// Acquires the lock, performs the call as one event of the log, and releases the lock. Errors: `Refused`, `LogFull`.
    pub fn call<T: Answer>(&mut self, call: Call<K, T>) -> Result<T, Error> {
        let mut reply = [0; 2];
        self.whole(|handle, looks| mc2_poll_call(handle, &call.0, &mut reply, looks))?;
        Reply(reply).answer()
    }
    /// Performs 1 to 8 calls in order as one event, which ends with the first call that the object refuses. Returns the replies
    /// to the calls that were performed. Errors: `LogFull`; `BadParam` for 0 or more than 8 calls.
    pub fn batch(&mut self, calls: &[Call<K>]) -> Result<impl Iterator<Item = Reply>, Error> {
        let (mut batch, mut replies) = (Batch { count: calls.len().min(9) as u32, ..Batch::default() }, Batch::default());
        batch.list.iter_mut().zip(calls).for_each(|(it, call)| *it = call.0);
        self.whole(|handle, looks| mc2_poll_batch(handle, &batch, &mut replies, looks))?;
        Ok(replies.list.into_iter().take(replies.count as usize).map(Reply))
    }
    /// Performs one call if no caller holds the lock or is in line for it. Errors: `Busy`, `Refused`, `LogFull`.
    pub fn try_call<T: Answer>(&mut self, call: Call<K, T>) -> Result<T, Error> {
        let mut reply = [0; 2];
        self.release(1);
        let result = mc2_poll_try_call(&mut self.handle, &call.0, &mut reply);
        self.end(result)?;
        Reply(reply).answer()
    }
    /// Acquires the lock, waiting in FIFO order.
    pub fn acquire(&mut self) -> Hold<'_, 'c, K> {
        self.release(0);
        self.cell.waiters.throttle();
        let (result, failed) = self.cell.waiters.steps(|| mc2_acquire_step(&mut self.handle));
        (self.is_held, self.looks) = (true, failed + u64::from(result == ACQUIRED_BY_LOOK));
        Hold(self)
    }
    /// Acquires the lock if no caller holds it or is in line for it. Returns `None` otherwise.
    pub fn try_acquire(&mut self) -> Option<Hold<'_, 'c, K>> {
        self.release(1);
        self.is_held = mc2_poll_try_acquire(&mut self.handle) == ACQUIRED_BY_LOOK;
        self.is_held.then(|| Hold(self))
    }
    fn whole(&mut self, mut step: impl FnMut(&mut CallerHandle, &mut u64) -> u32) -> Result<(), Error> {
        self.release(0);
        self.cell.waiters.throttle();
        let (result, _) = self.cell.waiters.steps(|| step(&mut self.handle, &mut self.looks));
        self.end(result)
    }
    // Ends a whole call: releases the lock if the call left it held.
    fn end(&mut self, result: u32) -> Result<(), Error> {
        self.is_held = result == DONE_HELD || result == LOG_FULL_HELD;
        self.release(self.looks);
        done(match result {
            DONE_HELD => DONE,
            LOG_FULL_HELD => LOG_FULL,
            other => other,
        })
    }
    // Releases the lock if the caller holds it, by a leaked hold for example, and sets the looks.
    fn release(&mut self, looks: u64) {
        if take(&mut self.is_held) {
            self.cell.waiters.steps(|| mc2_release_step(&mut self.handle));
        }
        self.looks = looks;
    }
}

impl<K> Drop for Caller<'_, K> {
    fn drop(&mut self) {
        self.release(0);
        // SAFETY: the handle isn't used after the drop.
        self.cell.idle.put(self.cpu, unsafe { ManuallyDrop::take(&mut self.handle) });
    }
}

/// A caller that holds the lock. Dropping it releases the lock. If it is leaked, the next call of its caller, or the caller's
/// drop, releases the lock.
pub struct Hold<'h, 'c, K>(&'h mut Caller<'c, K>);

impl<K> Hold<'_, '_, K> {
    /// Performs one call as one event of the log. Errors: `Refused`, `LogFull`.
    pub fn apply<T: Answer>(&mut self, call: Call<K, T>) -> Result<T, Error> {
        let mut reply = [0; 2];
        done(mc2_handle_apply(&mut self.0.handle, &call.0, &mut reply))?;
        Reply(reply).answer()
    }
    /// Releases the lock, as dropping the hold does.
    pub fn release(self) {}
}

impl<K> Drop for Hold<'_, '_, K> {
    fn drop(&mut self) { self.0.release(self.0.looks) }
}
