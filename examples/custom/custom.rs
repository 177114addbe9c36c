//! use: custom FILE
//!
//! Judges a record 3 in Rust. Each log is checked by a model on its own thread: run queues with priorities by `RunQueue`, and
//! objects of other kinds by `Any`, which calls every step right. From the top of the repository:
//!
//!     rustc -O examples/custom/custom.rs -L crates/judge/out -L KIT/c -l static=judge -l static=libc_c
//!
//! It prints the kind of the report with its numbers, and for each log why its first wrong step is wrong.
use std::collections::BTreeMap;
use std::process::ExitCode;

/// These structs are those of include/mc2_custom.h.
#[repr(C)]
#[derive(Clone, Copy, Default)]
struct Term {
    word: [u8; 16],
    numbers: [u64; 6],
    count: u64,
}

#[repr(C)]
#[derive(Clone, Copy, Default)]
struct Step {
    call: Term,
    reply: Term,
}

#[repr(C)]
#[derive(Clone, Copy, Default)]
struct Line {
    kind: u32,
    cpu: u32,
    next: u64,
    limit: u64,
    count: u64,
    name: [u8; 16],
    object_kind: [u8; 16],
    numbers: [u64; 32],
    steps: [Step; 8],
}

#[repr(C)]
#[derive(Default)]
struct Report {
    kind: u32,
    numbers: [u64; 3],
}

const SOUND: u32 = 0;
const OBJECT: u32 = 1;
const LOG: u32 = 2;
const EVENT: u32 = 3;
const OTHER: u32 = 4;

unsafe extern "C" {
    fn mc2_custom_line(text: *const u8, length: usize, at: usize, line: *mut Line);
    fn mc2_custom_audit(text: *const u8, length: usize, right: *const u64, objects: usize, report: *mut Report);
}

fn line_at(text: &[u8], at: u64) -> Line {
    let mut line = Line::default();
    // A slice's pointer is never NULL, and the library keeps no pointer.
    unsafe { mc2_custom_line(text.as_ptr(), text.len(), at as usize, &mut line) };
    line
}

fn word(padded: &[u8; 16]) -> &str {
    let length = padded.iter().position(|it| *it == 0).unwrap_or(16);
    std::str::from_utf8(&padded[..length]).expect("words are ASCII")
}

fn term(it: &Term) -> (&str, &[u64]) {
    (word(&it.word), &it.numbers[..it.count as usize])
}

/// Says of each step whether the object may have replied so.
trait Model {
    fn step(&mut self, call: (&str, &[u64]), reply: (&str, &[u64])) -> Result<(), &'static str>;
}

struct Any;

impl Model for Any {
    fn step(&mut self, _: (&str, &[u64]), _: (&str, &[u64])) -> Result<(), &'static str> {
        Ok(())
    }
}

/// The threads of each priority. Any thread of the highest priority may be taken.
#[derive(Default)]
struct RunQueue(BTreeMap<u64, Vec<u64>>);

impl RunQueue {
    fn take(&mut self, thread: u64) -> Result<(), &'static str> {
        let mut highest = self.0.last_entry().ok_or("no thread waits")?;
        let place = highest.get().iter().position(|it| *it == thread).ok_or("it hasn't the highest priority")?;
        highest.get_mut().swap_remove(place);
        if highest.get().is_empty() {
            highest.remove();
        }
        Ok(())
    }
}

impl Model for RunQueue {
    fn step(&mut self, call: (&str, &[u64]), reply: (&str, &[u64])) -> Result<(), &'static str> {
        match (call, reply) {
            (("put", &[thread, priority]), ("ok", [])) => {
                self.0.entry(priority).or_default().push(thread);
                Ok(())
            }
            (("take", []), ("empty", [])) if self.0.is_empty() => Ok(()),
            (("take", []), ("empty", [])) => Err("a thread waits"),
            (("take", []), ("thread", &[thread])) => self.take(thread),
            _ => Err("there is no such call, or no such reply to it"),
        }
    }
}

fn model_of(object: &Line) -> Box<dyn Model> {
    if word(&object.object_kind) == "runq" { Box::<RunQueue>::default() } else { Box::new(Any) }
}

/// An object's line, and where the line of its log begins.
struct Log {
    object: Line,
    begin: u64,
}

/// The byte where the line begins that is this many lines further on.
fn skip(text: &[u8], at: u64, lines: u64) -> u64 {
    let rest = text.get(at as usize..).unwrap_or_default();
    at + rest.split_inclusive(|it| *it == b'\n').take(lines as usize).map(<[u8]>::len).sum::<usize>() as u64
}

/// The objects and their logs. If the text isn't a record, it finds a part of them, and the library refuses the text.
fn find(text: &[u8]) -> Vec<Log> {
    let (mut logs, mut begun, mut line, mut at) = (Vec::new(), 0, line_at(text, 0), 0);
    while line.kind == LOG || (begun == 0 && [OBJECT, OTHER].contains(&line.kind)) {
        let mut next = line.next;
        if line.kind == OBJECT {
            logs.push(Log { object: line, begin: text.len() as u64 });
        } else if line.kind == LOG {
            logs.iter_mut().skip(begun).take(1).for_each(|it| it.begin = at);
            begun += 1;
            next = skip(text, line.next, line.limit);
        }
        (line, at) = (line_at(text, next), next);
    }
    logs
}

/// How many steps of the log are right, and why the next one isn't.
fn count(text: &[u8], log: &Log) -> (u64, Option<&'static str>) {
    let (mut model, mut right, mut line) = (model_of(&log.object), 0, line_at(text, log.begin));
    line = line_at(text, line.next);
    while line.kind == EVENT {
        for step in &line.steps[..line.count as usize] {
            if let Err(why) = model.step(term(&step.call), term(&step.reply)) {
                return (right, Some(why));
            }
            right += 1;
        }
        line = line_at(text, line.next);
    }
    (right, None)
}

fn audit(text: &[u8], right: &[u64]) -> Report {
    let mut report = Report::default();
    unsafe { mc2_custom_audit(text.as_ptr(), text.len(), right.as_ptr(), right.len(), &mut report) };
    report
}

fn main() -> ExitCode {
    let file = std::env::args().nth(1).expect("use: custom FILE");
    let text = std::fs::read(file).expect("the file can't be read");
    let logs = find(&text);
    let counts: Vec<_> = std::thread::scope(|scope| {
        let threads: Vec<_> = logs.iter().map(|log| scope.spawn(|| count(&text, log))).collect();
        threads.into_iter().map(|it| it.join().expect("a model has failed")).collect()
    });
    let right: Vec<u64> = counts.iter().map(|it| it.0).collect();
    let report = audit(&text, &right);
    println!("{} {:?}", report.kind, report.numbers);
    counts.iter().filter_map(|it| it.1).for_each(|why| println!("{why}"));
    ExitCode::from((report.kind != SOUND) as u8)
}
