#!/usr/bin/env python3
"""Kills runs of the program with SIGKILL, and runs it again each time.

    checks/kill.py PROGRAM [--instants N] [--calls N] [--seconds N] [--bytes N] [--units one|three]

Behind each kill: every file can be read, no unit is recorded complete whose image is not in the vehicle that the files
hold together (by a reader of its own), and the next run ends with status 0 and the memory of a run that was not killed.
A third of the runs that follow are killed too. Jobs: one unit, and three behind one another, two of them with keys.
"""
import argparse
import os
import random
import re
import shutil
import signal
import subprocess
import tempfile
import time

import bench_runs


def jobs(program, seconds, size, units):
    """The two jobs, their vehicles with as many responses pending as make a run last so long."""
    for name, sizes, keys in (("one unit", [size], False), ("three units", [size // 4] * 3, True)):
        if units and not name.startswith(units):
            continue
        waits = 1
        while True:
            job = bench_runs.Job(sizes, waits, keys=keys, chain=keys)
            with tempfile.TemporaryDirectory() as folder:
                job.lay(folder)
                began = time.monotonic()
                done = bench_runs.run(program, folder)
                took = time.monotonic() - began
                wrong = bench_runs.end(job, folder, done)
            if wrong:
                raise SystemExit(f"{name}, not killed: {wrong}")
            if took >= seconds or waits >= 150:
                break
            waits = min(150, max(waits + 1, int(waits * min(8, seconds / took))))
        yield name, job, took


def killed(command, folder, after):
    """Runs and kills; whether it still ran."""
    run = subprocess.Popen(command, cwd=folder, stdout=subprocess.DEVNULL, stderr=subprocess.DEVNULL)
    try:
        run.wait(after)
    except subprocess.TimeoutExpired:
        run.send_signal(signal.SIGKILL)
        run.wait()
        return True
    return False


def judged(program, job, folder, what, chance, took):
    """Looks at the files behind a kill, runs again (now and then with a kill between), and looks again."""
    wrong = bench_runs.look(job, folder)
    while not wrong and chance.random() < 1 / 3:
        killed([program, "run", "one.json", "1"], folder, chance.uniform(0, took))
        wrong = bench_runs.look(job, folder)
        what += " and again"
    if not wrong:
        wrong = bench_runs.end(job, folder, bench_runs.run(program, folder))
    if wrong:
        print(f"{what}: {wrong}; the files are in {folder}")
        return False
    shutil.rmtree(folder)
    return True


def at_instants(program, name, job, took, count):
    chance = random.Random(name)
    well = 0
    for i in range(count):
        folder = tempfile.mkdtemp(prefix="kill-")
        job.lay(folder)
        after = chance.uniform(0, took)
        killed([program, "run", "one.json", "1"], folder, after)
        well += judged(program, job, folder, f"{name}, killed after {after:.3f} s", chance, took)
    print(f"{name}: {well} of {count} kills at random instants of {took:.1f} s went well")
    return well == count


def system_calls(program, job, count):
    """The first system calls of a run, each with its number among those of its name."""
    with tempfile.TemporaryDirectory() as folder:
        job.lay(folder)
        subprocess.run(["strace", "-o", "trace", program, "run", "one.json", "1"], cwd=folder, capture_output=True)
        with open(f"{folder}/trace") as it:
            names = [found[1] for found in (re.match(r"(\w+)\(", line) for line in it) if found]
    seen, listed = {}, []
    for name in names[1 : count + 1]:
        seen[name] = seen.get(name, 0) + 1
        listed.append((name, seen[name]))
    return listed


def at_calls(program, name, job, took, count):
    chance = random.Random(name)
    listed = system_calls(program, job, count)
    well = 0
    for call, number in listed:
        folder = tempfile.mkdtemp(prefix="kill-")
        job.lay(folder)
        inject = f"inject={call}:signal=KILL:when={number}"
        subprocess.run(
            ["strace", "-o", "/dev/null", "-e", f"trace={call}", "-e", inject, program, "run", "one.json", "1"],
            cwd=folder,
            capture_output=True,
        )
        well += judged(program, job, folder, f"{name}, killed at {call} {number}", chance, took)
    print(f"{name}: {well} of {len(listed)} kills at system calls went well")
    return well == len(listed)


def main():
    words = argparse.ArgumentParser()
    words.add_argument("program")
    words.add_argument("--instants", type=int, default=200)
    words.add_argument("--calls", type=int, default=300)
    words.add_argument("--seconds", type=float, default=3.0)
    words.add_argument("--bytes", type=int, default=3_000_000)
    words.add_argument("--units", choices=("one", "three"))
    given = words.parse_args()
    program = os.path.abspath(given.program)
    traced = shutil.which("strace") is not None
    if not traced:
        print("no strace: kills at system calls are left out")
    good = True
    for name, job, took in jobs(program, given.seconds, given.bytes, given.units):
        good &= at_instants(program, name, job, took, given.instants)
        if traced:
            good &= at_calls(program, name, job, took, given.calls)
    return 0 if good else 1


if __name__ == "__main__":
    raise SystemExit(main())
