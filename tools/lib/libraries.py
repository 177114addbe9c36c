"""Builds the static libraries that programs in C link, over what `rt ci` left of the crates below them."""
import fcntl
import os
import shutil
import tempfile
from pathlib import Path

from common import ROOT, Stop, run

# What clang is told besides, by library. Of cells fewer functions are copied into others than by its own limit; but those with
# the hint `inline` are copied whatever they take, so that in a call by name nothing is left of the other calls. A match of less
# than 24 cases is compared, as a table to jump by takes a relocation of 24 bytes for each.
CLANG_WORDS = {"cells": "-mllvm -inline-threshold=90 -mllvm -inlinehint-threshold=40000 -mllvm -min-jump-table-entries=24"}

# The attributes that kernel_clang gives each function. In a module of Linux objtool asks for two more: no tables to jump by, and
# each return by the kernel's own thunk, which the kernel changes where it starts.
ATTRIBUTES = {"kernel_clang": "noredzone", "linux_clang": 'noredzone "no-jump-tables"="true" fn_ret_thunk_extern'}


def kit():
    """The folder of the kit, whose command rt is."""
    return Path(shutil.which("rt")).resolve().parent.parent


def heap():
    """The library of the kit's heap."""
    path = kit() / "c/liblibc_c.a"
    if not path.exists():
        raise Stop(f"the kit has no {path}", 2)
    return path


def stands_on(top=ROOT):
    """The crates that each crate of crates.txt names, of this repository or of the kit."""
    lines = (line.partition("#")[0].partition(":") for line in (top / "crates.txt").read_text().splitlines())
    return {head.split()[0]: names.split() for head, colon, names in lines if colon}


def is_static(crate):
    """Whether crates.txt has the crate as a static library."""
    heads = (line.partition("#")[0].partition(":")[0].split() for line in (ROOT / "crates.txt").read_text().splitlines())
    return any(it[:1] == [crate] and "staticlib" in it for it in heads)


def words_of(crate):
    """The words by which the kit's compiler reads the crate, over the crates below it."""
    crates = stands_on()
    below = [*crates[crate]]
    for name in below:
        below += [it for it in crates.get(name, []) if it not in below]
    own = {it: ROOT / f"crates/{it}/out/rlib" for it in below if it in crates}
    main = "src/main.rt" if (ROOT / f"crates/{crate}/src/main.rt").is_file() else "src/lib.rt"
    words = ["--crate-name", crate, main, "--extern", f"std={kit()}/rlibs/std.rlib", "-L", f"dependency={kit()}/rlibs"]
    for name in crates[crate]:
        words += ["--extern", f"{name}={own.get(name, kit() / 'rlibs')}/{name}.rlib"]
    for name, folder in own.items():
        words += ["-L", f"dependency={folder}"]
    if is_static(crate):
        words += [word for name in own for word in ("--links", f"{name}=")] + ["--crate-type", "staticlib"]
    words += ["--links", f"{crate}="]
    return [*words, "--antt-project", kit() / "rattle/logic/antt-project.json"]


def make_toolchain(folder, own, programs):
    """Makes the kit's toolchain in the folder, but for these of its programs: they are that one of tools/lib."""
    (folder / "bin").mkdir(parents=True)
    (folder / "kit").symlink_to(kit() / "toolchain")
    (folder / "lib").symlink_to(kit() / "toolchain/lib")
    for program in (kit() / "toolchain/bin").iterdir():
        (folder / "bin" / program.name).symlink_to(ROOT / "tools/lib" / own if program.name in programs else program)


def make_library_toolchain(folder, crate, clang):
    """Makes the toolchain of the crate's library in the folder, with that clang: library_clang, kernel_clang, or linux_clang, which
    is kernel_clang with more attributes."""
    make_toolchain(folder, "kernel_clang" if clang in ATTRIBUTES else clang, ["clang"])
    # (the compiler hands its clang no variable)
    (folder / "words").write_text(CLANG_WORDS.get(crate, ""))
    (folder / "attributes").write_text(ATTRIBUTES.get(clang, ""))


def strip_for(clang, library):
    """What is left is the names that a linker needs; for Linux those of all functions, which its traces of the stack name."""
    if clang != "linux_clang":
        run(["strip", "--strip-unneeded", library])


def build_library(crate, clang="library_clang", library=None):
    """Builds the crate's library over the crates below it, which it doesn't prove once more, and returns its path. The crate
    itself is proved, unless the compiler takes what is left of its last proof, as nothing that it has read has changed."""
    folder = ROOT / "crates" / crate
    library = library or folder / f"out/lib{crate}.a"
    checked = folder / f"out/{crate}.checked"
    library.parent.mkdir(parents=True, exist_ok=True)
    with open(folder / "out/library.lock", "w") as lock, tempfile.TemporaryDirectory() as room:
        # (checks that run at the same time build the same libraries)
        fcntl.flock(lock, fcntl.LOCK_EX)
        make_library_toolchain(Path(room), crate, clang)
        words = words_of(crate)
        new = Path(room) / f"lib{crate}.a"
        build = [kit() / "bin/rattle", "build", *words, "--crate-checked", checked, "--toolchain", room, "-o", new]
        if not checked.exists() or run(build, wanted=None, cwd=folder).returncode != 0:
            proof = ["--jobs", "2", "--logic-built", kit() / "logic_built", "-o", checked]
            run([kit() / "bin/rattle", "check", *words, *proof], cwd=folder)
            run(build, cwd=folder)
        strip_for(clang, new)
        shutil.copy(new, f"{library}.new")
        os.replace(f"{library}.new", library)
    return library
