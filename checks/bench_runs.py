"""Orders, simulated vehicles and the files of runs, for the checks that kill runs and fill disks.

An own reader of the journal and of the file of calls stands here, so that a check does not rest on the program that it checks.
"""
import hashlib
import json
import os
import random
import struct
import subprocess

FILES = {"flash.journal", "bench.json", "bench.calls", "bench.json.new"}


def data(name, size):
    return random.Random(name).randbytes(size)


class Job:
    """An order, its data and its vehicle: `sizes` are the bytes of its units."""

    def __init__(self, sizes, waits, keys=False, chain=False):
        self.names = [chr(ord("A") + i) for i in range(len(sizes))]
        self.units = {}
        tasks, units = [], []
        for i, (name, size) in enumerate(zip(self.names, sizes)):
            address = f"{0x1001 + i:04X}"
            image = data(name, size)
            self.units[address] = (0x1000, image)
            task = {"name": name, "unit": address, "check": "0202", "raw": name.lower() + ".bin", "at": "1000"}
            unit = {
                "address": address,
                "regions": [{"at": "1000", "size": size, "fill": "FF"}],
                "check": "0202",
                "troubles": [
                    {"sid": sid, "nth": nth, "do": "pending", "ticks": 900, "times": waits}
                    for sid, nth in (("31", 1), ("34", 1), ("31", 2), ("11", 1))
                    if waits
                ],
            }
            if keys and i % 2 == 0:
                key = {"rule": "xor", "level": "01", "mask": "A5C3"}
                task["key"] = unit["key"] = key
                unit["seed"] = "1234"
            if chain and i:
                task["after"] = [self.names[i - 1]]
            tasks.append(task)
            units.append(unit)
        self.order = {"tester": "0E80", "relinks": 2, "tasks": tasks}
        self.bench = {"entity": "4000", "units": units}

    def lay(self, folder):
        """The files in a folder, as no run has left it."""
        os.makedirs(folder, exist_ok=True)
        with open(f"{folder}/one.json", "w") as it:
            json.dump(self.order, it)
        with open(f"{folder}/bench.json", "w") as it:
            json.dump(self.bench, it)
        for name, address in zip(self.names, self.units):
            with open(f"{folder}/{name.lower()}.bin", "wb") as it:
                it.write(self.units[address][1])

    def lacks(self, memory, address):
        """What of a unit's image a memory has not, as a text; empty where it has all."""
        at, image = self.units[address]
        got = memory[address].get(at)
        return "" if got == image else f"unit {address} does not hold its image"


def run(program, folder, **more):
    return subprocess.run([program, "run", "one.json", "1"], cwd=folder, capture_output=True, **more)


def memory_of(vehicle):
    """The regions of each unit, by their first address, as a vehicle file says them."""
    memory = {}
    for unit in vehicle["units"]:
        regions = {}
        for region in unit["regions"]:
            regions[int(region["at"], 16)] = bytearray([int(region["fill"], 16)]) * region["size"]
        for piece in unit.get("bytes", []):
            put(regions, int(piece["at"], 16), bytes.fromhex(piece["hex"]))
        memory[unit["address"].upper()] = regions
    return memory


def put(regions, at, piece):
    for first, region in regions.items():
        if first <= at and at + len(piece) <= first + len(region):
            region[at - first : at - first + len(piece)] = piece
            return
    raise ValueError(f"bytes at {at:X} lie in no region")


def frames(raw):
    """The whole frames of a stream, as pairs of payload type and payload."""
    found, at = [], 0
    while at + 8 <= len(raw):
        if raw[at : at + 2] != b"\x03\xfc":
            break
        kind, size = struct.unpack(">HI", raw[at + 2 : at + 8])
        if at + 8 + size > len(raw):
            break
        found.append((kind, raw[at + 8 : at + 8 + size]))
        at += 8 + size
    return found


def mixed(kind, payload):
    total = kind
    for byte in payload:
        total = (total * 16777619 + byte) % 2**32
    return total


def calls(raw, vehicle_bytes):
    """The calls that a file of calls keeps on this vehicle's file."""
    parts = frames(raw)
    if not parts or parts[0] != (0xF000, hashlib.sha256(vehicle_bytes).digest()):
        return []
    kept = []
    for (kind, payload), (seal, total) in zip(parts[1::2], parts[2::2]):
        if seal != 0xF004 or total != struct.pack(">I", mixed(kind, payload)):
            break
        kept.append((kind, payload))
    return kept


class Unit:
    """What requests do to a unit's memory, where it answers each as it should."""

    def __init__(self, regions):
        self.regions, self.at = regions, 0

    def range(self, option):
        width = option[0]
        address = int.from_bytes(option[1 : 1 + width % 16], "big")
        return address, int.from_bytes(option[1 + width % 16 : 1 + width % 16 + width // 16], "big")

    def hear(self, request):
        if request[:4] == b"\x31\x01\xff\x00":
            at, size = self.range(request[4:])
            put(self.regions, at, b"\xff" * size)
        elif request[0] == 0x34:
            self.at, _ = self.range(request[2:])
        elif request[0] == 0x36:
            put(self.regions, self.at, request[2:])
            self.at += len(request) - 2


def memory_in(folder):
    """The memory of the vehicle that the files of a folder hold together."""
    with open(f"{folder}/bench.json", "rb") as it:
        raw = it.read()
    memory = memory_of(json.loads(raw))
    path = f"{folder}/bench.calls"
    if not os.path.exists(path):
        return memory
    with open(path, "rb") as it:
        kept = calls(it.read(), raw)
    units = {address: Unit(regions) for address, regions in memory.items()}
    sent = b""
    for kind, payload in kept:
        if kind == 0xF001:
            sent = b""
        if kind != 0xF003:
            continue
        sent += payload
        for frame, body in frames(sent):
            sent = sent[8 + len(body) :]
            if frame == 0x8001:
                units[f"{int.from_bytes(body[2:4], 'big'):04X}"].hear(body[4:])
    return memory


def complete(folder):
    """The numbers of the units that the journal records complete; raises ValueError where it is no journal."""
    path = f"{folder}/flash.journal"
    if not os.path.exists(path):
        return set()
    with open(path, "rb") as it:
        raw = it.read()
    if len(raw) <= 1 or raw[0] == 0 or (len(raw) >= 8 and raw[1:8] == b"ODXFJNL" and raw[0] != 0xA5):
        return set()
    if len(raw) < 64 or raw[:9] != b"\xa5ODXFJNL\x02":
        raise ValueError("not a journal")
    slots = int.from_bytes(raw[12:16], "big")
    if len(raw) < 64 + 17 * slots:
        raise ValueError("a short journal")
    done = set()
    for i in range(slots):
        body = raw[64 + slots + 16 * i : 64 + slots + 16 * (i + 1)]
        if raw[64 + i] == 0xA5:
            if body[0] not in (1, 2, 3):
                raise ValueError(f"slot {i} has no body")
            if body[0] == 2:
                done.add(int.from_bytes(body[2:4], "big"))
    return done


def look(job, folder):
    """What is wrong with the files that a run left, as a list of texts."""
    wrong = []
    try:
        memory = memory_in(folder)
        for number in complete(folder):
            address = list(job.units)[number]
            if job.lacks(memory, address):
                wrong.append(f"recorded complete, but {job.lacks(memory, address)}")
    except (ValueError, KeyError, OSError) as error:
        wrong.append(f"a file cannot be read: {error}")
    return wrong


def end(job, folder, done):
    """What is wrong behind a run that ended well."""
    wrong = [] if done.returncode == 0 else [f"status {done.returncode}: {done.stdout!r} {done.stderr!r}"]
    beside = FILES & set(os.listdir(folder)) - {"flash.journal", "bench.json"}
    if beside:
        wrong.append(f"beside the vehicle's file stands {sorted(beside)}")
    wrong += look(job, folder)
    if not wrong:
        memory = memory_in(folder)
        wrong += [text for text in (job.lacks(memory, a) for a in job.units) if text]
        if complete(folder) != set(range(len(job.units))):
            wrong.append("not all units are recorded complete")
    return wrong
