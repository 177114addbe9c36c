#!/usr/bin/env python3
"""use: same_run.py PROGRAM

Runs a program that prints a record in which one CPU works, and has `$MC2 run` do the same calls. The two records are the same.
"""
import os
import subprocess
import sys
import tempfile
from pathlib import Path

sys.dont_write_bytecode = True
sys.path.append(str(Path(__file__).resolve().parents[3] / "tools/lib"))
from texts.record import read_record

record = subprocess.run([sys.argv[1]], stdout=subprocess.PIPE, check=True).stdout
said = read_record(record)
entries = ((cpu, it) for cpu, transcript in enumerate(said.transcripts) for it in transcript)
scripts = "".join(f"{cpu} {said.objects[it.object].name} {it.asked}\n" for cpu, it in entries)
with tempfile.NamedTemporaryFile("w", suffix=".toml") as settings:
    settings.write(f"cpus = {said.cpus}\n" + "".join(named.table() for named in said.objects))
    settings.flush()
    words = [os.environ["MC2"], "run", "--settings", settings.name]
    again = subprocess.run(words, input=scripts.encode(), stdout=subprocess.PIPE, check=True).stdout
if again != record:
    sys.exit("mc2 run prints another record of the same calls")
