//! The functions of libcells.a that include/mc2_cells_raw.h declares, the handles that own what the library allocates, and the
//! heap of both libraries.
use crate::Error;
use core::mem::ManuallyDrop;
use core::ptr::{null_mut, NonNull};
use core::sync::atomic::{AtomicPtr, Ordering::SeqCst};

// Results. tests/numbers.rs compares them with include/mc2_result.h.
pub const DONE: u32 = 0;
pub const AGAIN: u32 = 1;
pub const ACQUIRED_BY_LOOK: u32 = 3;
const REFUSED: u32 = 5;
const BUSY: u32 = 6;
pub const STEPPED: u32 = 7;
pub const LOG_FULL: u32 = 8;
const NO_MEMORY: u32 = 10;
const BAD_PARAM: u32 = 11;
pub const DONE_HELD: u32 = 12;
pub const LOG_FULL_HELD: u32 = 13;

/// The error for a result, except for the result of a single step. The library refuses only a batch of 0 or more than 8 calls:
/// this crate calls nothing else in a state that doesn't allow it.
pub fn done(result: u32) -> Result<(), Error> {
    Err(match result {
        DONE => return Ok(()),
        REFUSED | BAD_PARAM => Error::BadParam,
        BUSY => Error::Busy,
        LOG_FULL => Error::LogFull,
        NO_MEMORY => Error::NoMemory,
        _ => Error::Unexpected(result),
    })
}

// The header's structs, which are rows of 32-bit numbers. An opening has the lock, the kind, the events, the CPUs, the size, the
// channels and 16 quotas; a call its word and two arguments; a reply its word and its number; a step of the log its CPU, its call
// and its reply.
pub type Opening = [u32; 22];
pub type CallWords = [u32; 3];
pub type ReplyWords = [u32; 2];
pub type LoggedStep = [u32; 6];
#[repr(C)]
#[derive(Default)]
pub struct Batch<T> { pub count: u32, pub list: [T; 8] }

macro_rules! handle {
    ($(#[$about:meta])* $name:ident, $alloc:ident, $free:ident) => {
        $(#[$about])*
        #[repr(C)]
        pub struct $name(NonNull<u8>);
        // SAFETY: a handle may be handed to another thread with everything that it has, as crates/cells/README.md says.
        unsafe impl Send for $name {}

        impl $name {
            pub fn new() -> Result<$name, Error> {
                let mut place = null_mut();
                done($alloc(&mut place))?;
                NonNull::new(place).map($name).ok_or(Error::NoMemory)
            }
        }

        impl Drop for $name {
            fn drop(&mut self) {
                // SAFETY: nobody uses a handle after its drop. A caller that isn't idle is refused, and its memory isn't freed.
                unsafe { $free(ManuallyDrop::new($name(self.0))) };
            }
        }
    };
}

handle!(
    /// What the library allocated for a cell. Dropping it frees that.
    CellHandle, mc2_handle_alloc_cell, mc2_handle_free_cell
);
handle!(
    /// What the library allocated for a caller. Dropping it frees that.
    CallerHandle, mc2_handle_alloc_caller, mc2_handle_free_caller
);

// SAFETY: as the header declares them. A function is safe if its types ensure the header's obligations: the handle was allocated,
// no other call uses it, and nobody else touches the places that are written. Other misuse returns MC2_REFUSED.
unsafe extern "C" {
    safe fn mc2_handle_alloc_cell(place: &mut *mut u8) -> u32;
    safe fn mc2_handle_alloc_caller(place: &mut *mut u8) -> u32;
    fn mc2_handle_free_cell(handle: ManuallyDrop<CellHandle>) -> u32;
    fn mc2_handle_free_caller(handle: ManuallyDrop<CallerHandle>) -> u32;
    pub safe fn mc2_handle_open_cell(cell: &mut CellHandle, opening: &Opening) -> u32;
    pub safe fn mc2_handle_open_caller(cell: &mut CellHandle, caller: &mut CallerHandle) -> u32;
    pub safe fn mc2_acquire_step(caller: &mut CallerHandle) -> u32;
    pub safe fn mc2_release_step(caller: &mut CallerHandle) -> u32;
    pub safe fn mc2_poll_try_acquire(caller: &mut CallerHandle) -> u32;
    pub safe fn mc2_handle_apply(caller: &mut CallerHandle, call: &CallWords, reply: &mut ReplyWords) -> u32;
    pub safe fn mc2_poll_call(caller: &mut CallerHandle, call: &CallWords, reply: &mut ReplyWords, looks: &mut u64) -> u32;
    pub safe fn mc2_poll_batch(
        caller: &mut CallerHandle, batch: &Batch<CallWords>, replies: &mut Batch<ReplyWords>, looks: &mut u64,
    ) -> u32;
    pub safe fn mc2_poll_try_call(caller: &mut CallerHandle, call: &CallWords, reply: &mut ReplyWords) -> u32;
    // The caller has to be a caller of that cell, which the library doesn't check.
    pub fn mc2_handle_return_caller(cell: &mut CellHandle, caller: &mut CallerHandle) -> u32;
    pub safe fn mc2_handle_close_cell(cell: &mut CellHandle) -> u32;
    pub safe fn mc2_handle_read_step(cell: &mut CellHandle, event: usize, index: usize, step: &mut LoggedStep) -> u32;
}

/// The callers of a cell that aren't in use, by CPU.
pub struct Idle([AtomicPtr<u8>; 64]);

impl Idle {
    pub fn new() -> Idle { Idle([const { AtomicPtr::new(null_mut()) }; 64]) }
    pub fn put(&self, cpu: u32, caller: CallerHandle) {
        self.0[cpu as usize].store(ManuallyDrop::new(caller).0.as_ptr(), SeqCst)
    }
    pub fn take(&self, cpu: u32) -> Option<CallerHandle> {
        NonNull::new(self.0.get(cpu as usize)?.swap(null_mut(), SeqCst)).map(CallerHandle)
    }
}

impl Drop for Idle {
    fn drop(&mut self) { (0..64).for_each(|cpu| drop(self.take(cpu))) }
}

/// The functions that the libraries need from a heap (see include/mc2_heap.h), over the system's heap, which aligns to 16 bytes.
#[cfg(feature = "std")]
mod heap {
    #[repr(C)]
    struct Allocation(bool, core::ptr::NonNull<u8>);

    unsafe extern "C" {
        fn realloc(old: *mut u8, size: usize) -> *mut u8;
        fn free(old: *mut u8);
    }

    // SAFETY, of all three: a library frees each block that it got, and only once.
    #[no_mangle]
    unsafe extern "C" fn rattle_realloc(old: *mut u8, _kept: usize, size: usize, align: usize) -> Allocation {
        let block = core::ptr::NonNull::new(realloc(old, if size > 0 { size } else { align }));
        Allocation(block.is_some(), block.unwrap_or(core::ptr::NonNull::dangling()))
    }
    #[no_mangle]
    unsafe extern "C" fn rattle_alloc(size: usize, align: usize) -> Allocation { rattle_realloc(super::null_mut(), 0, size, align) }
    #[no_mangle]
    unsafe extern "C" fn rattle_dealloc(old: *mut u8) { free(old) }
}
