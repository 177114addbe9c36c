//! Two threads call a queue, each by a caller of its own. CMakeLists.txt replaces parts of it by misuse.
use mc2::{audit, Cell, LockKind, Queue};
use std::thread::scope;

fn opened() -> Cell<Queue> {
    Cell::open(Queue { threads: 8 }, LockKind::Mcs, 2, 10).unwrap()
}

#[allow(dead_code)]
fn share<T: Sync>(_: &T) {}

fn main() {
    let cell = opened();
    let mut one = cell.caller().unwrap();
    let mut two = cell.caller().unwrap();
    scope(|scope| {
        scope.spawn(|| one.call(Queue::enq(1)).unwrap());
        scope.spawn(|| two.call(Queue::enq(2)).unwrap());
    });
    let cpu = one.cpu();
    let mut hold = one.acquire();
    let thread = hold.apply(Queue::deq()).unwrap();
    hold.release();
    share(&cell);
    drop((one, two));
    let mut log = cell.close().unwrap();
    assert!(cpu == 0 && thread > 0 && log.read_step(2, 0).is_some());
    assert!(audit("record").is_err());
}
