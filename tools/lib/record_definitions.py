"""What is told of small records 3, by the definitions themselves: each fault by its own condition, the first by its place, orders by
trying all."""
import itertools

from made_records import REFUSING

SOUND, TOO_LONG, WRONG_STEP, ROOM_WAS_LEFT, NOT_ITS_EVENT, NOT_ASKED, UNCLAIMED, CYCLE = range(8)
NO_ROOM, MISTOLD = 10, 11


def log_faults(record):
    for x, log in enumerate(record.logs):
        if len(log) > record.limits[x]:
            yield (0, x, 0, 0), (TOO_LONG, x, 0, 0)
        before = []
        for e, (_, event) in enumerate(log):
            for i, step in enumerate(event):
                before.append(step)
                if not record.is_right(x, before) or any(reply in REFUSING for _, reply in event[:i]):
                    yield (0, x, e + 1, i), (WRONG_STEP, x, e, i)


def taken_before(own, n, x):
    return sum(y == x and done is not None for y, _, done in own[:n])


def entry_faults(record):
    for cpu, own in enumerate(record.transcripts):
        for n, (x, asked, done) in enumerate(own):
            mine, taken = [event for by, event in record.logs[x] if by == cpu], taken_before(own, n, x)
            if done is None:
                if len(record.logs[x]) < record.limits[x] or taken < len(mine):
                    yield (1, cpu, n, 0), (ROOM_WAS_LEFT, cpu, n, 0)
                continue
            if taken >= len(mine) or mine[taken] != done:
                yield (1, cpu, n, 0), (NOT_ITS_EVENT, cpu, n, 0)
            calls = [call for call, _ in done]
            if calls != asked[: len(calls)] or (len(calls) < len(asked) and done[-1][1] not in REFUSING):
                yield (1, cpu, n, 1), (NOT_ASKED, cpu, n, 0)


def unclaimed(record):
    for x, log in enumerate(record.logs):
        for e, (cpu, _) in enumerate(log):
            own = record.transcripts[cpu]
            if taken_before(own, len(own), x) <= sum(by == cpu for by, _ in log[:e]):
                yield (2, x, e, 0), (UNCLAIMED, x, e, 0)


def is_told(record, counts, x):
    return x < len(record.logs) and x < len(counts) and counts[x] <= sum(len(steps) for _, steps in record.logs[x])


def verdict(record, counts):
    """The kind and the numbers that have to be told."""
    places = range(max(len(record.logs), len(counts)))
    mistold = next((x for x in places if not is_told(record, counts, x)), None)
    if mistold is not None:
        return MISTOLD, mistold, 0, 0
    faults = itertools.chain(log_faults(record), entry_faults(record), unclaimed(record))
    return min(faults, default=((), (SOUND, 0, 0, 0)), key=lambda it: it[0])[1]


def is_order(record, places):
    """Whether these places, which have each CPU's entries in order, have each log's events in order too."""
    at = [0] * len(record.logs)
    for cpu, n in places:
        x, _, done = record.transcripts[cpu][n]
        log = record.logs[x]
        if (at[x] < len(log)) if done is None else (at[x] == len(log) or log[at[x]] != (cpu, done)):
            return False
        at[x] += done is not None
    return at == [len(log) for log in record.logs]


def interleavings(record):
    """All of them, in the order of their CPUs."""
    bag = [cpu for cpu, own in enumerate(record.transcripts) for _ in own]
    for cpus in sorted(set(itertools.permutations(bag))):
        at = [0] * len(record.transcripts)
        places = []
        for cpu in cpus:
            places.append((cpu, at[cpu]))
            at[cpu] += 1
        yield places


def least_order(record):
    return next((it for it in interleavings(record) if is_order(record, it)), None)


def waits_for(record, places, one, other):
    """Whether the first entry's object has to do an event of the second entry's CPU next."""
    at = [0] * len(record.logs)
    for cpu, n in places:
        x, _, done = record.transcripts[cpu][n]
        at[x] += done is not None
    x = record.transcripts[one[0]][one[1]][0]
    return at[x] < len(record.logs[x]) and record.logs[x][at[x]][0] == other[0]


def front(record):
    """The entries that can come at all, one by one."""
    placed, at, done_on = [], [0] * len(record.transcripts), [0] * len(record.logs)
    goes_on = True
    while goes_on:
        goes_on = False
        for cpu, own in enumerate(record.transcripts):
            while at[cpu] < len(own):
                x, _, done = own[at[cpu]]
                log = record.logs[x]
                next_by = log[done_on[x]][0] if done_on[x] < len(log) else None
                if next_by != (None if done is None else cpu):
                    break
                placed.append((cpu, at[cpu]))
                at[cpu] += 1
                done_on[x] += done is not None
                goes_on = True
    return placed


def is_cycle(record, cycle):
    """Whether each of these entries is its CPU's next once all that can come have come, and waits for the next one."""
    placed = front(record)
    nexts = [sum(by == cpu for by, _ in placed) for cpu in range(len(record.transcripts))]
    are_next = all(n == nexts[cpu] and n < len(record.transcripts[cpu]) for cpu, n in cycle)
    pairs = zip(cycle, cycle[1:] + cycle[:1])
    return are_next and len(cycle) > 1 and cycle[0] == min(cycle) and all(waits_for(record, placed, *pair) for pair in pairs)
