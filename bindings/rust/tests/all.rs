//! Calls by threads, the closing of cells, and verdicts.
use mc2::{audit, merge, Caller, Cell, EntryId, Error, Fault, LockKind, Page, Pool, Queue};
use std::mem::forget;

const PAGES: Pool = Pool { pages: 64, quotas: [40; 16] };

/// Calls in each way, and the entries of a record for them.
fn work(mut caller: Caller<Pool>) -> Vec<String> {
    let (mut notes, mut pages) = (Vec::new(), Vec::new());
    let owner = caller.cpu();
    for at in 0..2000 {
        let call = if at % 3 == 2 { pages.pop().map(|it| Pool::free(owner, it).any()) } else { None };
        let call = call.unwrap_or(Pool::alloc(owner).any());
        let replies: Vec<_> = match at % 5 {
            0 => [caller.acquire().apply(call).unwrap()].into(),
            1 => caller.batch(&[call, Pool::left().any()]).unwrap().collect(),
            2 => caller.try_call(call).or_else(|_| caller.call(call)).into_iter().collect(),
            _ => [caller.call(call).unwrap()].into(),
        };
        pages.extend(replies[0].answer::<Page>());
        let asked = if at % 5 == 1 { format!("{call} ; left") } else { call.to_string() };
        let second = replies.get(1).map_or(String::new(), |it| format!(" ; left = {it}"));
        notes.push(format!("{} {asked} | {call} = {}{second}", caller.looks(), replies[0]));
    }
    notes
}

#[test]
fn four_threads_are_sound_and_an_edit_is_not() {
    for lock in [LockKind::Ticket, LockKind::Mcs] {
        let cell = Cell::open(PAGES, lock, 4, 65_536).unwrap();
        let entries: Vec<_> = std::thread::scope(|scope| {
            let callers = [0, 1, 2, 3].map(|cpu| cell.caller_of(cpu).unwrap());
            let threads = callers.map(|it| scope.spawn(|| work(it)));
            threads.into_iter().map(|it| it.join().unwrap()).collect()
        });
        let (mut text, mut order) = (String::new(), [EntryId::default(); 8000]);
        cell.close().unwrap().write_record(&mut text, "pages", &entries).unwrap();
        assert_eq!(audit(&text), Ok(()));
        assert_eq!(merge(&text, &mut order).map(|it| it.len()), Ok(8000));
        assert_eq!(merge(&text, &mut order[1..]), Err(Fault::NoRoom { entries: 8000 }));
        let twice = text.replacen(" = page 1", " = page 0", 1);
        let event = text.lines().skip(5).position(|it| it.contains(" = page 1")).unwrap() as u64;
        assert_eq!(audit(&twice), Err(Fault::WrongStep { object: 0, event, step: 0 }));
    }
}

#[test]
fn any_order_of_ends_is_harmless() {
    let cell = Cell::open(Queue { threads: 8 }, LockKind::Mcs, 3, 2).unwrap();
    let (mut one, two) = (cell.caller().unwrap(), cell.caller_of(2).unwrap());
    assert!(cell.caller_of(0).is_none() && cell.caller_of(3).is_none() && cell.caller_of(64).is_none());
    let mut middle = cell.caller().unwrap();
    drop(two);
    forget(one.acquire());
    assert_eq!(middle.try_call(Queue::enq(1)), Err(Error::Busy));
    assert!(middle.try_acquire().is_none());
    // The next call releases the lock of a leaked hold.
    assert_eq!((one.call(Queue::enq(1)), middle.call(Queue::deq()), one.call(Queue::len())), (Ok(()), Ok(1), Err(Error::LogFull)));
    assert!(matches!(one.batch(&[]).err(), Some(Error::BadParam)));
    one.acquire().release();
    forget(one.acquire());
    drop((one, middle));
    let mut log = cell.close().unwrap();
    let shown = log.read_step(1, 0).map(|(cpu, call, reply)| format!("{cpu} {call} = {reply}"));
    assert_eq!(shown.as_deref(), Some("1 deq = thread 1"));
    assert!(log.read_step(1, 1).is_none() && log.read_step(2, 0).is_none());
    let leaky = Cell::open(Queue { threads: 8 }, LockKind::Ticket, 2, 0).unwrap();
    forget(leaky.caller());
    assert!(matches!(leaky.close(), Err(Error::Busy)));
    assert!(matches!(Cell::open(Queue { threads: 8 }, LockKind::Ticket, 65, 0), Err(Error::BadParam)));
    assert!(matches!(Cell::open(Queue { threads: 0 }, LockKind::Ticket, 1, 0), Err(Error::BadParam)));
}

#[test]
fn a_text_that_is_no_record_has_a_bad_line() {
    let (mut text, cell) = (String::new(), Cell::open(Queue { threads: 8 }, LockKind::Ticket, 1, 1).unwrap());
    cell.close().unwrap().write_record(&mut text, "no name", &[[""; 0]]).unwrap();
    let not_utf8: &[u8] = b"record 2\ncpus 1\nobjects 1\nobject \xff ticket 1 queue 8\n";
    let texts: [&[u8]; 5] = [b"", b"\0", b"record 2\n\0", not_utf8, text.as_bytes()];
    assert_eq!(texts.map(audit), [1, 1, 2, 4, 4].map(|line| Err(Fault::BadLine { line })));
}
