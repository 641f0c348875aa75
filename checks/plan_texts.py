#!/usr/bin/env python3
"""Writes an order of units with sessions, its catalogue, and a text of records for each unit.

Usage: plan_texts.py COUNT BYTES hex|srec

Unit n is task A<n>, whose one datablock is all of the file u<n>.hex or u<n>.srec: BYTES bytes of noise from address 0
on, the same in every run, in records of 16 bytes.
"""
import json
import multiprocessing
import random
import sys


def hex_line(kind, at, data):
    line = bytes([len(data)]) + at.to_bytes(2, "big") + bytes([kind]) + data
    return ":%s%02X\n" % (line.hex().upper(), -sum(line) % 256)


def hex_text(noise):
    for at in range(0, len(noise), 16):
        if at % 65536 == 0:
            yield hex_line(4, 0, (at >> 16).to_bytes(2, "big"))
        yield hex_line(0, at % 65536, noise[at : at + 16])
    yield hex_line(1, 0, b"")


def srec_line(kind, at, data):
    line = bytes([len(data) + 5]) + at.to_bytes(4, "big") + data
    return "S%d%s%02X\n" % (kind, line.hex().upper(), ~sum(line) % 256)


def srec_text(noise):
    for at in range(0, len(noise), 16):
        yield srec_line(3, at, noise[at : at + 16])
    yield srec_line(7, 0, b"")


FORMATS = {"hex": ("INTEL-HEX", hex_text), "srec": ("MOTOROLA-S", srec_text)}


def named(tag, key, *kids):
    return {"tag": tag, "attrs": {"ID": key}, "kids": list(kids)}


def leaf(tag, text):
    return {"tag": tag, "text": text}


def catalogue(count, ending, selection):
    sessions, blocks, flashes = [], [], []
    for n in range(count):
        refs = [{"tag": "DATABLOCK-REF", "attrs": {"ID-REF": f"B{n}"}}]
        sessions.append(named("SESSION", f"S{n}", leaf("SHORT-NAME", "APP"), {"tag": "DATABLOCK-REFS", "kids": refs}))
        flash = {"tag": "FLASHDATA-REF", "attrs": {"ID-REF": f"F{n}"}}
        blocks.append(named("DATABLOCK", f"B{n}", leaf("SHORT-NAME", "CODE"), flash))
        form = {"tag": "DATAFORMAT", "attrs": {"SELECTION": selection}}
        flashes.append(named("FLASHDATA", f"F{n}", form, leaf("DATAFILE", f"u{n}.{ending}")))
    groups = [("SESSIONS", sessions), ("DATABLOCKS", blocks), ("FLASHDATAS", flashes)]
    mem = {"tag": "MEM", "kids": [{"tag": tag, "kids": kids} for tag, kids in groups]}
    return {"tag": "ECU-MEM", "kids": [mem]}


def order(count):
    tasks = [{"name": f"A{n}", "unit": f"{0x1000 + n:04X}", "check": "0202", "session": f"S{n}"} for n in range(count)]
    return {"tester": "0E80", "catalogue": "catalogue.json", "tasks": tasks}


def write_text(n, size, ending):
    text = FORMATS[ending][1]
    with open(f"u{n}.{ending}", "w") as out:
        out.writelines(text(random.Random(n).randbytes(size)))


def main():
    count, size, ending = int(sys.argv[1]), int(sys.argv[2]), sys.argv[3]
    selection = FORMATS[ending][0]
    with multiprocessing.Pool() as pool:
        pool.starmap(write_text, [(n, size, ending) for n in range(count)])
    with open("catalogue.json", "w") as out:
        json.dump(catalogue(count, ending, selection), out)
    with open("order.json", "w") as out:
        json.dump(order(count), out)


if __name__ == "__main__":
    main()
