//! Calls from a program without std and alloc, with the heap of include/mc2_heap.h.
#![no_std]
use mc2::{audit, Cell, Fault, LockKind, Queue};

#[panic_handler]
fn panic(_: &core::panic::PanicInfo) -> ! {
    loop {}
}

fn called() -> Option<u32> {
    let cell = Cell::open(Queue { threads: 8 }, LockKind::Mcs, 2, 10).ok()?;
    let mut caller = cell.caller()?;
    caller.call(Queue::enq(3)).ok()?;
    let thread = caller.acquire().apply(Queue::deq()).ok()?;
    drop(caller);
    cell.close().ok()?;
    (audit("record 2\n") == Err(Fault::BadLine { line: 2 })).then_some(thread)
}

/// Enqueues a thread and dequeues it. Returns it, or 0 after an error.
#[no_mangle]
pub extern "C" fn kernel_calls() -> u32 {
    called().unwrap_or(0)
}
