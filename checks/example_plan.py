"""The bytes of the example vehicle's plan as docs/FORMATS.md has them, spelled one by one."""
import hashlib

ENGINE, GEARBOX = b"abcd", b"GEARBOX1"


def sha(data):
    return hashlib.sha256(data).hexdigest()


def number(n, size):
    return n.to_bytes(size, "big")


def text(name):
    return number(len(name), 1) + name.encode()


def segment(at, body):
    return number(at, 8) + number(len(body), 4) + body


def digest(engine=ENGINE, gearbox=GEARBOX):
    plan = b"ODXFPLAN" + number(1, 1) + number(2, 2)
    plan += number(0x1001, 2) + text("ENGINE") + b"\x44" + number(0x0202, 2) + b"\x00"
    plan += number(1, 1) + number(0xF191, 2) + number(1, 1) + text("HW-0042")
    plan += number(0, 1) + number(1, 2) + segment(0x10000, engine)
    plan += number(0x1002, 2) + text("GEARBOX") + b"\x23" + number(0x0203, 2) + b"\x01\x01\x02\xa5\xc3"
    plan += number(1, 1) + number(0xF195, 2) + number(2, 1) + text("1") + text("2")
    plan += number(1, 1) + number(0, 2) + number(1, 2) + segment(0x8000, gearbox)
    return sha(plan)
