"""Random objects and scripts, for tools that try the built program on many runs."""
from common import MOST_CPUS
from texts.calls import KINDS, TAKES

LOCKS = ["ticket", "mcs"]
CPUS = [1, 2, 3, 4, 8, 9, 33, MOST_CPUS]
# The greatest numbers of calls: a thread, an owner, a page, a channel, a byte.
MOST = {"T": 6, "O": 16, "P": 6, "C": 3, "B": 255}
# The most entries of all CPUs.
MOST_ENTRIES = 20_000


def draw_objects(draw):
    """The kinds of some objects, and their tables in the settings."""
    kinds, tables = [], []
    for place in range(draw.randint(1, 16)):
        kind = draw.choice([*KINDS])
        small, sizes = draw.choice([1, 2, 5, 40]), {}
        if kind == "pool":
            sizes["pages"] = small
            if draw.random() < 0.5:
                sizes["quotas"] = [draw.randint(0, small) for _ in range(16)]
        elif kind == "console":
            sizes["bytes"] = small
        else:
            sizes["threads"] = small
        if kind == "sched":
            sizes["channels"] = draw.randint(1, 3)
        lines = [f'name = "o{place}"', f'kind = "{kind}"', f'lock = "{draw.choice(LOCKS)}"']
        lines += [f"events = {draw.choice([1, 10, 1_000, 65_536])}"] + [f"{key} = {value}" for key, value in sizes.items()]
        kinds.append(kind)
        tables.append("[[object]]\n" + "\n".join(lines) + "\n")
    return kinds, "".join(tables)


def draw_call(draw, kind):
    """A call on an object of that kind, or now and then on one of another kind."""
    calls = KINDS[kind if draw.random() >= 0.01 else draw.choice([*KINDS])]
    word, *takes = draw.choice([*calls]).split()
    return " ".join([word, *(str(draw.randint(0, MOST[it])) for it in takes)])


def draw_reply(draw, kind):
    """A reply that some call on an object of that kind may get."""
    word = draw.choice([it for replies in KINDS[kind].values() for it in replies.split()])
    return f"{word} {draw.randint(0, 2)}" if word in TAKES else word


def draw_scripts(draw, cpus, kinds, most):
    """What each CPU asks, at most so many entries: an object's name and the calls, in order."""
    most = min(most, MOST_ENTRIES // cpus)
    asked = []
    for _ in range(cpus):
        places = [draw.randrange(len(kinds)) for _ in range(draw.randint(0, most))]
        calls = ([draw_call(draw, kinds[place]) for _ in range(draw.choice([1, 1, 1, 2, 8]))] for place in places)
        asked.append([(f"o{place}", " ; ".join(those)) for place, those in zip(places, calls)])
    return asked


def scripts_text(asked):
    """The text of the scripts."""
    return "".join(f"{cpu} {name} {calls}\n" for cpu, those in enumerate(asked) for name, calls in those)
