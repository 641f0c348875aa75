#!/usr/bin/env python3
"""Reads and resolves two generated catalogues beside Python's json, in the same run.

Usage: checks/catalogue_speed.py, after `rt run` in crates/bench has built the program. Prints, for a catalogue with
long inside texts and one of 200,000 small elements: its size; the time of `bench catalogue` (tree and document) and of Python's
json.loads, each by the clock and by the processor, the latter with the reading of the file; the peak memory of `bench catalogue`,
and of the same program that only has serde_json parse the file; and how much the first is above the second, in sizes of the
file. Then the times of both kinds at half and at full size. It measures and judges nothing: figures compare only within one run.
"""
import json
import os
import pathlib
import subprocess
import sys
import tempfile
import time

program = pathlib.Path(__file__).resolve().parent.parent / "crates/bench/out/bench"


def run(words, folder):
    """Its output, the peak of its memory in bytes, and its processor time in milliseconds."""
    with tempfile.TemporaryFile() as out:
        child = subprocess.Popen([str(program), "catalogue", *words], cwd=folder, stdout=out)
        _, status, usage = os.wait4(child.pid, 0)
        child.returncode = status
        out.seek(0)
        if status != 0:
            sys.exit(f"bench catalogue {' '.join(words)}: status {status}")
        return out.read().decode(), usage.ru_maxrss * 1024, (usage.ru_utime + usage.ru_stime) * 1000


def milliseconds(text):
    return int(text.split()[0]) / 1000


def main():
    if not program.exists():
        sys.exit(f"{program} is not there: run `rt run` in crates/bench first")
    with tempfile.TemporaryDirectory() as folder:
        run(["make"], folder)
        for name, kind in [("long.json", "long inside texts"), ("small.json", "200,000 small elements")]:
            path = pathlib.Path(folder) / name
            size = path.stat().st_size
            read, peak, read_cpu = run([name], folder)
            parsed, peak_parsed, parsed_cpu = run(["parse", name], folder)
            start, start_cpu = time.perf_counter(), time.process_time()
            json.loads(path.read_bytes())
            python, python_cpu = (time.perf_counter() - start) * 1000, (time.process_time() - start_cpu) * 1000
            above = (peak - peak_parsed) / size
            print(f"{kind}: {size} bytes")
            print(f"  by the clock: read and resolved {milliseconds(read):.0f} ms, of it serde_json {milliseconds(parsed):.0f} ms; json.loads {python:.0f} ms")
            print(f"  by the processor: read and resolved {read_cpu:.0f} ms, serde_json alone {parsed_cpu:.0f} ms; json.loads {python_cpu:.0f} ms")
            print(f"  peak {peak / size:.1f} times the file, serde_json alone {peak_parsed / size:.1f} times: {above:.1f} times the file above it")
        print(run(["time"], folder)[0], end="")


if __name__ == "__main__":
    main()
