"""The walk of examples/walk.txt; see walk.sh."""
import json
import pathlib
import re
import shutil
import signal
import subprocess
import sys
import tempfile
import time

from example_plan import ENGINE, GEARBOX, digest

PROGRAM, EXAMPLES = sys.argv[1], pathlib.Path(sys.argv[2])
KILLED = " & kill -9 $!"
# after so many seconds the run is killed
DELAYS = [0.0, 0.001, 0.002, 0.003, 0.005, 0.008, 0.012, 0.02, 0.05]


def steps(text):
    """The commands of the walk, each with the lines that it prints and its status; None where it is killed or no command of ours."""
    found = []
    for block in re.split(r"\n\n+", text):
        lines = block.strip().split("\n")
        if lines[0].startswith("$ "):
            status = int(lines[-1][3:]) if lines[-1].startswith("=> ") else None
            found.append((lines[0][2:], lines[1:-1] if status is not None else [], status))
    return found


def is_like(printed, wanted):
    """Whether the lines are those of the walk, where `*` stands for one word."""
    pattern = "\n".join(wanted + [""])
    return re.fullmatch("\\S+".join(map(re.escape, pattern.split("*"))), printed) is not None


def run(words, folder):
    ran = subprocess.run([PROGRAM, *words], cwd=folder, capture_output=True, timeout=60)
    return ran.returncode, ran.stdout.decode()


def killed(words, folder, delay):
    started = subprocess.Popen([PROGRAM, *words], cwd=folder, stdout=subprocess.DEVNULL)
    time.sleep(delay)
    started.send_signal(signal.SIGKILL)
    started.wait()


def memory(unit):
    """The bytes of a unit of a vehicle file by address."""
    held = {}
    for region in unit["regions"]:
        for i in range(region["size"]):
            held[int(region["at"], 16) + i] = int(region["fill"], 16)
    for patch in unit.get("bytes", []):
        for i, byte in enumerate(bytes.fromhex(patch["hex"])):
            held[int(patch["at"], 16) + i] = byte
    return held


def wants_memory(folder):
    """What differs of the memories that the vehicle should have at the end."""
    units = {unit["address"]: unit for unit in json.loads((folder / "bench.json").read_text())["units"]}
    wrong = []
    for address, at, body in (("1001", 0x10000, ENGINE), ("1002", 0x8000, GEARBOX)):
        held = memory(units[address])
        if bytes(held[at + i] for i in range(16)) != body + b"\xff" * (16 - len(body)):
            wrong.append(f"memory of {address}")
        if not units[address].get("passed"):
            wrong.append(f"{address} has not passed")
    return wrong


def walk(folder, delay, text):
    wrong = []
    for line, wanted, status in steps(text):
        if line.startswith("printf "):
            _, data, _, name = line.split()
            wrong += wants_memory(folder)
            (folder / name).write_text(data)
        elif line.endswith(KILLED):
            killed(line.removesuffix(KILLED).split()[1:], folder, delay)
        else:
            got, printed = run(line.split()[1:], folder)
            if got != status or not is_like(printed, wanted):
                wrong.append(f"{line}: wanted {status} and\n" + "\n".join(wanted) + f"\ngot {got} and\n{printed}")
    return wrong


def main():
    text = (EXAMPLES / "walk.txt").read_text()
    wanted = {digest(), digest(gearbox=b"GEARBOX2")}
    said = set(re.findall(r"\b[0-9a-f]{64}\b", "\n".join(re.findall(r"^(?:plan|journal) .*$", text, re.M))))
    faults = [] if said == wanted else ["the digests of the walk are not those of its data"]
    for delay in DELAYS:
        with tempfile.TemporaryDirectory() as work:
            folder = pathlib.Path(work) / "examples"
            shutil.copytree(EXAMPLES, folder)
            if delay == DELAYS[0]:
                run(["run", "vehicle.json", "4"], folder)
                if not (folder / "flash.journal").exists():
                    print("skipped: the program keeps no journal in its folder")
                    return 0
                shutil.rmtree(folder)
                shutil.copytree(EXAMPLES, folder)
            faults += [f"killed after {delay} s: {fault}" for fault in walk(folder, delay, text)]
    print("\n".join(faults + [f"walk: {len(DELAYS)} times, {len(faults)} wrong"]))
    return len(faults) > 0


sys.exit(main())
