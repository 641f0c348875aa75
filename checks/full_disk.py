#!/usr/bin/env python3
"""Runs the program on small disks that are full at one time or another, and two runs at a time.

    checks/full_disk.py PROGRAM

Each folder is a tmpfs of its own, for which the caller has to be root. Behind each run: its status and last line are the
ones that are named here, every file can be read, and once there is room the next run ends with status 0 and each image in
its unit.
"""
import argparse
import contextlib
import os
import signal
import subprocess
import tempfile
import time

import bench_runs

PAGE = 4096


@contextlib.contextmanager
def disk(size):
    folder = tempfile.mkdtemp(prefix="disk-")
    subprocess.run(["mount", "-t", "tmpfs", "-o", f"size={size}", "tmpfs", folder], check=True)
    try:
        yield folder
    finally:
        subprocess.run(["umount", folder], check=True)
        os.rmdir(folder)


def fill(folder, leave):
    """Fills a disk up to so many bytes."""
    room = os.statvfs(folder)
    with open(f"{folder}/ballast", "wb") as it:
        it.write(bytes(max(0, room.f_bavail * room.f_frsize - leave)))


def case(program, what, leave, wanted, file=None):
    """A run on a disk with so much room; `wanted` are the statuses and last lines that it may end with."""
    job = bench_runs.Job([200_000], 0)
    with disk("8m") as folder:
        job.lay(folder)
        if file:
            file(folder)
        fill(folder, leave)
        done = bench_runs.run(program, folder)
        last = done.stdout.decode().splitlines()[-1:]
        wrong = [] if (done.returncode, *last) in wanted else [f"status {done.returncode}, {done.stdout!r}"]
        wrong += bench_runs.look(job, folder)
        os.remove(f"{folder}/ballast")
        wrong += bench_runs.end(job, folder, bench_runs.run(program, folder))
    print(f"{what}: {wrong or 'as wanted'}")
    return not wrong


def two_at_a_time(program):
    """A second run, and looks, while a first one has the journal."""
    job = bench_runs.Job([400_000] * 2, 150)
    with tempfile.TemporaryDirectory() as folder:
        job.lay(folder)
        first = subprocess.Popen([program, "run", "one.json", "1"], cwd=folder, stdout=subprocess.DEVNULL)
        for _ in range(1000):
            if os.path.exists(f"{folder}/bench.calls"):
                break
            time.sleep(0.002)
        wrong = []
        first.send_signal(signal.SIGSTOP)
        second = bench_runs.run(program, folder, timeout=20)
        if second.returncode != 6 or b"disk fault" not in second.stdout or b"flash.journal" not in second.stderr:
            wrong.append(f"the second run: {second}")
        for words in (["check", "one.json"], ["image", "one.json", "A"], ["status", "one.json"]):
            look = subprocess.run([program, *words], cwd=folder, capture_output=True, timeout=20)
            if look.returncode != 0 or look.stderr:
                wrong.append(f"{words[0]}: {look}")
        first.send_signal(signal.SIGCONT)
        if first.wait() != 0:
            wrong.append(f"the first run: {first.returncode}")
        wrong += bench_runs.end(job, folder, bench_runs.run(program, folder))
    print(f"two at a time: {wrong or 'as wanted'}")
    return not wrong


def folder_as_journal(program):
    """A journal that is a folder, and vehicle files that are none."""
    job = bench_runs.Job([100], 0)
    wrong = []
    with tempfile.TemporaryDirectory() as folder:
        job.lay(folder)
        os.mkdir(f"{folder}/flash.journal")
        done = bench_runs.run(program, folder)
        if done.returncode != 6 or done.stdout != b"disk fault\n":
            wrong.append(f"a folder as journal: {done}")
        os.rmdir(f"{folder}/flash.journal")
        for text in ("{", '{"entity":"4000"}', '{"entity":"4000","units":[{"address":"1001"}]}'):
            with open(f"{folder}/bench.json", "w") as it:
                it.write(text)
            before = sorted(os.listdir(folder))
            done = bench_runs.run(program, folder)
            with open(f"{folder}/bench.json") as it:
                same = it.read() == text
            if done.returncode != 9 or done.stdout != b"bench\n" or not same or sorted(os.listdir(folder)) != before:
                wrong.append(f"{text}: {done}")
    print(f"bad files: {wrong or 'as wanted'}")
    return not wrong


def main():
    words = argparse.ArgumentParser()
    words.add_argument("program")
    program = os.path.abspath(words.parse_args().program)
    good = folder_as_journal(program)
    good &= two_at_a_time(program)
    if os.getuid() != 0:
        print("not root: full disks are left out")
        return 0 if good else 1
    good &= case(program, "full in the journal", 0, {(6, "disk fault")})
    good &= case(
        program,
        "full in the calls",
        12 * PAGE,
        {(6, "complete 0 of 1"), (10, "bench not written")},
    )
    good &= case(program, "full at the last save", 300_000, {(10, "bench not written")})
    return 0 if good else 1


if __name__ == "__main__":
    raise SystemExit(main())
