"""The whole runs that tools/measure/runs and waiting time: scripts on queues of 8 threads, with each lock and with a mutex.

The entries are `enq 3` and `deq` in turn, each on the next queue. The mutex's program is plain Rust.
"""
import time

from common import ROOT, record_of, run

LOCKS = ["ticket", "mcs"]


def build_baseline(folder):
    """The mutex's program, built in that folder."""
    run(["rustc", "-O", "--edition", "2021", "-o", folder / "mutex", ROOT / "tools/lib/run_speed/mutex.rs"])
    return folder / "mutex"


def settings_of(folder, cpus, objects, lock):
    """The file of the settings."""
    object_ = '[[object]]\nname = "q{}"\nkind = "queue"\nthreads = 8\nlock = "{}"\nevents = 65536\n'
    file = folder / f"{lock}-{cpus}-{objects}.toml"
    file.write_text(f"cpus = {cpus}\n" + "".join(object_.format(x, lock) for x in range(objects)))
    return file


def scripts_of(folder, cpus, entries, objects):
    """The file of the scripts."""
    lines = (f"{cpu} q{(i + cpu) % objects} {('enq 3', 'deq')[i % 2]}\n" for i in range(entries) for cpu in range(cpus))
    file = folder / f"scripts-{cpus}-{entries}-{objects}"
    file.write_text("".join(lines))
    return file


def commands(folder, programs, baseline, cpus, entries, objects):
    """The command of the mutex's program, and for each lock that of each program, by the lock's name and the program's."""
    scripts = scripts_of(folder, cpus, entries, objects)
    words = {"mutex": [baseline, str(cpus), str(objects), scripts]}
    for lock in LOCKS:
        settings = settings_of(folder, cpus, objects, lock)
        words.update({lock + name: [program, "run", "--settings", settings, scripts] for name, program in programs.items()})
    return words


def times_of(words, rounds, **how):
    """The milliseconds of each kind, each started so often, in turn."""
    times = {kind: [] for kind in words}
    for _ in range(rounds):
        for kind, command in words.items():
            begin = time.perf_counter()
            record_of(command, **how)
            times[kind].append((time.perf_counter() - begin) * 1e3)
    return times
