//! How callers of a cell wait, as in include/mc2_wait.h. Without std they neither sleep nor throttle.
use crate::ffi::{AGAIN, STEPPED};
use core::sync::atomic::{AtomicU64, Ordering::Relaxed};

const SLEEPS: bool = cfg!(feature = "std");
// A caller in line sleeps from its failed look LONG_WAIT on. The pauses before it grow in rounds of ROUND looks.
const LONG_WAIT: u64 = 120;
const ROUND: u64 = 6;
// Microseconds: a sleep in line takes SLEEP_IN_LINE; a throttle takes THROTTLE, and THROTTLE_EACH more for each other throttled
// caller, up to MOST_OTHERS of them.
const SLEEP_IN_LINE: u64 = 100;
const THROTTLE: u64 = 1000;
const THROTTLE_EACH: u64 = 250;
const MOST_OTHERS: u64 = 64;
const THROTTLED: u64 = 1 << 32;

fn sleep(_microseconds: u64) {
    #[cfg(feature = "std")]
    std::thread::sleep(core::time::Duration::from_micros(_microseconds));
}

/// The waiting callers of a cell: the low half counts those that sleep in line, the high half those that are throttled.
#[derive(Default)]
pub struct Waiters(AtomicU64);

impl Waiters {
    /// Sleeps once before the caller joins the line, if another caller sleeps in line.
    pub fn throttle(&self) {
        if SLEEPS && self.0.load(Relaxed) % THROTTLED != 0 {
            let others = self.0.fetch_add(THROTTLED, Relaxed) / THROTTLED;
            sleep(THROTTLE + THROTTLE_EACH * others.min(MOST_OTHERS));
            self.0.fetch_sub(THROTTLED, Relaxed);
        }
    }
    fn backoff(&self, failed: u64) {
        if !SLEEPS || failed < LONG_WAIT {
            return (0..1 << (failed % ROUND)).for_each(|_| core::hint::spin_loop());
        }
        self.0.fetch_add(u64::from(failed == LONG_WAIT), Relaxed);
        sleep(SLEEP_IN_LINE);
    }
    /// Performs steps until one is the last. Returns its result, and the number of failed looks.
    pub fn steps(&self, mut step: impl FnMut() -> u32) -> (u32, u64) {
        let (mut result, mut failed) = (step(), 0);
        while result == STEPPED || result == AGAIN {
            failed += u64::from(result == AGAIN);
            if result == AGAIN { self.backoff(failed) }
            result = step();
        }
        if SLEEPS && failed >= LONG_WAIT { self.0.fetch_sub(1, Relaxed); }
        (result, failed)
    }
}
