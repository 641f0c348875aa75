"""tools/odx_tree.py over documents written by hand, and what the program says of the folders; see odx_tree.sh.

Every line that is wanted is typed here. A plan's digest is that of its bytes as docs/FORMATS.md has them, spelled here one
by one from the bytes that a segment is to have.

Usage: odx_tree.py PATH_OF_flash_top [CASE..]
"""
import ast
import hashlib
import json
import os
import pathlib
import re
import subprocess
import sys
import tempfile
import textwrap
import zipfile

TOP = pathlib.Path(__file__).resolve().parent.parent
SCRIPT = TOP / "tools/odx_tree.py"
DOCUMENTS = TOP / "checks/odx_tree"
PROGRAM = sys.argv[1]
counts = {"compared": 0, "wrong": 0}


def same(what, got, wanted):
    counts["compared"] += 1
    if got != wanted:
        counts["wrong"] += 1
        print(f"{what}: wanted\n{wanted}\ngot\n{got}")


def convert(file, folder="out", environment=None):
    """What the script prints of a file of the present folder; its status is 0."""
    words = [sys.executable, str(SCRIPT), file, folder]
    ran = subprocess.run(words, stdout=subprocess.PIPE, stderr=subprocess.PIPE, env={**os.environ, **(environment or {})})
    same(f"{file}: status", (ran.returncode, ran.stderr.decode()), (0, ""))
    return ran.stdout.decode()


def program(*words, folder="out"):
    """The status and the lines of the program in a folder that the script wrote."""
    ran = subprocess.run([PROGRAM, *words], cwd=folder, stdout=subprocess.PIPE)
    return ran.returncode, ran.stdout.decode()


def fill_in(order, tasks, folder="out"):
    """Fills in a first order by hand: some of its tasks, by name, each with its identifiers. Leaves it in order.json."""
    path = pathlib.Path(folder)
    value = json.loads((path / order).read_text(encoding="utf-8"))
    value["tasks"] = [{**task, **({"dids": dids} if dids else {})}
                      for name, dids in tasks.items() for task in value["tasks"] if task["name"] == name]
    (path / "order.json").write_text(json.dumps(value), encoding="utf-8")


# The bytes of a plan.


def number(n, size):
    return n.to_bytes(size, "big")


def counted(data):
    return number(len(data), 1) + data


def ident(did, *values):
    return number(did, 2) + number(len(values), 1) + b"".join(map(counted, values))


def segment(at, data):
    return number(at, 8) + number(len(data), 4) + data


def unit(address, name, segments, idents=()):
    """A unit of width 44 with check routine 0202, without key rule and without units before it."""
    told = number(address, 2) + counted(name.encode()) + b"\x44\x02\x02\x00" + number(len(idents), 1) + b"".join(idents)
    return told + number(0, 1) + number(len(segments), 2) + b"".join(segments)


def sha(data):
    return hashlib.sha256(data).hexdigest()


def digest(*units):
    return sha(b"ODXFPLAN\x01" + number(len(units), 2) + b"".join(units))


# The documents.


def copy(*names):
    for name in names:
        pathlib.Path(name).write_bytes((DOCUMENTS / name).read_bytes())


def put(name, data):
    path = pathlib.Path(name)
    path.parent.mkdir(parents=True, exist_ok=True)
    path.write_bytes(data)


def listed(folder="out"):
    return sorted(os.listdir(folder))


def formats():
    """Plain flash data of each format, inside and outside."""
    copy("formats.odx-f")
    put("code.hex", b":020000040800F2\r\n:02FFFF000102FD\r\n:00000001FF\r\n")
    put("code.s19", b"S107100001020304DE\nS9030000FC\n")
    put("data.bin", b"\xff\x00binary")
    same("formats", convert("formats.odx-f"), """\
wrote code.hex: data of FD.HEXFILE
wrote code.s19: data of FD.SRECFILE
wrote data.bin: data of FD.BINFILE
wrote formats.json: catalogue of formats.odx-f
wrote formats-order.json: order, tasks: 6
fill in formats-order.json: tester (0E80 stands there)
fill in formats-order.json: task HEX: unit (1001), check (0202), key (none)
fill in formats-order.json: task SREC: unit (1002), check (0202), key (none)
fill in formats-order.json: task BIN: unit (1003), check (0202), key (none)
fill in formats-order.json: task HEX_FILE: unit (1004), check (0202), key (none)
fill in formats-order.json: task SREC_FILE: unit (1005), check (0202), key (none)
fill in formats-order.json: task BIN_FILE: unit (1006), check (0202), key (none)
""")
    plan = digest(
        unit(0x1001, "HEX", [segment(0x10000, b"abcd")]),
        unit(0x1002, "SREC", [segment(0x1000, b"\x01\x02\x03\x04")]),
        unit(0x1003, "BIN", [segment(0x2000, b"\xc0\xff\xee")]),
        unit(0x1004, "HEX_FILE", [segment(0x800FFFF, b"\x01\x02")]),
        unit(0x1005, "SREC_FILE", [segment(0x1000, b"\x01\x02\x03\x04")]),
        unit(0x1006, "BIN_FILE", [segment(0x3000, b"\xff\x00"), segment(0x4000, b"binary")]),
    )
    same("formats: check", program("check", "formats-order.json"), (0, f"""\
plan {plan}
unit HEX 1001 segments 1 bytes 4 after -
unit SREC 1002 segments 1 bytes 4 after -
unit BIN 1003 segments 1 bytes 3 after -
unit HEX_FILE 1004 segments 1 bytes 2 after -
unit SREC_FILE 1005 segments 1 bytes 4 after -
unit BIN_FILE 1006 segments 2 bytes 8 after -
units 6 bytes 25
"""))
    same("formats: image", program("image", "formats-order.json", "BIN_FILE"), (0, f"""\
segment 0 0000003000 2 {sha(bytes([255, 0]))}
segment 1 0000004000 6 {sha(b"binary")}
"""))
    same("formats: first order", json.loads(pathlib.Path("out/formats-order.json").read_text())["tasks"][3],
         {"name": "HEX_FILE", "unit": "1004", "check": "0202", "session": "S.HEXFILE"})


def parts():
    """Filters, offsets, idents with several values, checksums."""
    copy("parts.odx-f")
    same("parts", convert("parts.odx-f"), """\
wrote parts.json: catalogue of parts.odx-f
wrote parts-order.json: order, tasks: 1
look at parts.odx-f, line 32: an IDENT-VALUE of type A_UINT32 is compared as its text
look at parts.odx-f, line 11: SECURITYS of a SESSION is not read by check
fill in parts-order.json: tester (0E80 stands there)
fill in parts-order.json: task PARTS: unit (1001), check (0202), key (none)
fill in parts-order.json: task PARTS: dids of HWNR, VARIANT, COUNT
""")
    same("parts: first order", program("check", "parts-order.json"), (2, "input parts-order.json no did PARTS HWNR\n"))
    fill_in("parts-order.json", {"PARTS": {"HWNR": "F191", "VARIANT": "F1A0", "COUNT": "F1A1"}})
    plan = digest(unit(
        0x1001, "PARTS",
        [segment(0x80001000, b"\x01\x02"), segment(0x80001003, b"\x04"), segment(0x1000, b"\xaa"), segment(0x1010, b"abc")],
        [ident(0xF191, b"HW-0042", b"HW-0043"), ident(0xF1A0, b"\x01\x02", b"\x0a\x0b\x0c", b"\xff"), ident(0xF1A1, b"7")],
    ))
    same("parts: check", program("check", "order.json"), (0, f"""\
plan {plan}
unit PARTS 1001 segments 4 bytes 7 after -
checksum PARTS DIGEST ok
checksum PARTS SUM ok
checksum PARTS CRC not checked
units 1 bytes 7
"""))
    same("parts: image", program("image", "order.json", "PARTS"), (0, f"""\
segment 0 0080001000 2 {sha(bytes([1, 2]))}
segment 1 0080001003 1 {sha(bytes([4]))}
segment 2 0000001000 1 {sha(bytes([0xAA]))}
segment 3 0000001010 3 ba7816bf8f01cfea414140de5dae2223b00361a396177a9cb410ff61f20015ad
own SWNR 53572D37
"""))


def refused():
    """What the script passes on and the program refuses by name."""
    copy("refused.odx-f")
    put("secret.bin", b"\x93\x01\x7f")
    put("container.acme", b"ACME")
    same("refused", convert("refused.odx-f"), """\
wrote secret.bin: data of FD.ENCRYPTED
wrote container.acme: data of FD.USER
wrote refused.json: catalogue of refused.odx-f
wrote refused-order.json: order, tasks: 5
fill in refused-order.json: tester (0E80 stands there)
fill in refused-order.json: task COMPRESSED: unit (1001), check (0202), key (none)
fill in refused-order.json: task ENCRYPTED: unit (1002), check (0202), key (none)
fill in refused-order.json: task USER: unit (1003), check (0202), key (none)
fill in refused-order.json: task EMPTY: unit (1004), check (0202), key (none)
fill in refused-order.json: task SUM: unit (1005), check (0202), key (none)
""")
    for task, line in [
        ("COMPRESSED", "input refused.json compressed FD.COMPRESSED\n"),
        ("ENCRYPTED", "input refused.json compressed FD.ENCRYPTED\n"),
        ("USER", "input refused.json user defined FD.USER\n"),
        ("EMPTY", "input refused.json no segment \n"),
        ("SUM", "input refused.json checksum differs SUM 0004 0003\n"),
    ]:
        fill_in("refused-order.json", {task: {}})
        same(f"refused: {task}", program("check", "order.json"), (2, line))


SHARED = """\
wrote shared.json: catalogue of shared.odx-f
wrote shared-order.json: order, tasks: 2
fill in shared-order.json: tester (0E80 stands there)
fill in shared-order.json: task DOOR_APPLICATION_AND_CALIBRATION: unit (1001), check (0202), key (none)
fill in shared-order.json: task DOOR_APPLICATION_AND_CALIBRATI_2: unit (1002), check (0202), key (none)
"""


def shared():
    """Two ECU-MEMs that share a datablock, with umlauts, in UTF-8 and in UTF-16 of both orders."""
    copy("shared.odx-f")
    same("shared", convert("shared.odx-f"), SHARED)
    plan = digest(
        unit(0x1001, "DOOR_APPLICATION_AND_CALIBRATION", [segment(0x1000, b"abc"), segment(0x8000, b"L")]),
        unit(0x1002, "DOOR_APPLICATION_AND_CALIBRATI_2", [segment(0x1000, b"abc"), segment(0x8000, b"R")]),
    )
    same("shared: check", program("check", "shared-order.json"), (0, f"""\
plan {plan}
unit DOOR_APPLICATION_AND_CALIBRATION 1001 segments 2 bytes 4 after -
unit DOOR_APPLICATION_AND_CALIBRATI_2 1002 segments 2 bytes 4 after -
units 2 bytes 8
"""))
    first = {name: pathlib.Path("out", name).read_bytes() for name in listed()}
    same("shared: long name", '{"tag":"LONG-NAME","text":"Türsteuergerät links"}'.encode() in first["shared.json"], True)
    text = (DOCUMENTS / "shared.odx-f").read_text(encoding="utf-8").replace("UTF-8", "UTF-16")
    for order, mark in [("le", b"\xff\xfe"), ("be", b"\xfe\xff")]:
        put("shared.odx-f", mark + text.encode(f"utf-16-{order}"))
        same(f"shared, UTF-16 {order}", convert("shared.odx-f", order), SHARED)
        same(f"shared, UTF-16 {order}: files", {name: pathlib.Path(order, name).read_bytes() for name in listed(order)}, first)


# A document whose data file lies at the top of the package.
TOP_FILE = '<ECU-MEM><MEM><FLASHDATAS><FLASHDATA ID="FD.TOP"><DATAFILE>.hidden</DATAFILE></FLASHDATA></FLASHDATAS></MEM></ECU-MEM>'


def package():
    """A package: names that are changed, a file that comes later, documents that are none of flash data."""
    files = {
        "Motor Teil 1.bin": b"1", "motor_teil_1.bin": b"22", "data/Motor Teil 1.bin": b"333", ".hidden": b"4444",
        "Prüf.bin": b"55555", "Kit-Order.json": b"666666", "second/app.bin": b"APP", "diagnosis.odx-d": b"<ODX/>",
        "connectors.odx-f": b"<ODX><FLASH><ECU-MEM-CONNECTORS/></FLASH></ODX>",
        "index.xml": (DOCUMENTS / "index.xml").read_bytes(), "kit.odx-f": (DOCUMENTS / "kit.odx-f").read_bytes(),
        "second/kit.xml": (DOCUMENTS / "second.odx-f").read_bytes(), "third/top.odx": TOP_FILE.encode(),
    }
    with zipfile.ZipFile("kit.pdx", "w", zipfile.ZIP_DEFLATED) as archive:
        archive.writestr("data/", b"")
        for name, data in files.items():
            archive.writestr(name, data)
    pathlib.Path("out").mkdir()
    same("package", convert("kit.pdx", environment={"PYTHONIOENCODING": "utf-8"}), """\
wrote Motor_Teil_1.bin: data of FD.1, FD.7
wrote motor_teil_1-2.bin: data of FD.2
wrote data_Motor_Teil_1.bin: data of FD.3
wrote _.hidden: data of FD.4, FD.TOP
wrote Pr_f.bin: data of FD.5
wrote Kit-Order-2.json: data of FD.6
wrote app.bin: data of FD.SECOND
wrote kit.json: catalogue of kit.odx-f
wrote kit-2.json: catalogue of second/kit.xml
wrote top.json: catalogue of third/top.odx
wrote kit-order.json: order, tasks: 2
wrote kit-2-order.json: order, tasks: 1
wrote top-order.json: order, tasks: 0
renamed Motor Teil 1.bin to Motor_Teil_1.bin
renamed motor_teil_1.bin to motor_teil_1-2.bin
renamed data/Motor Teil 1.bin to data_Motor_Teil_1.bin
renamed .hidden to _.hidden
renamed Prüf.bin to Pr_f.bin
renamed Kit-Order.json to Kit-Order-2.json
missing late.bin: data of FD.LATE, not in kit.pdx
renamed second/app.bin to app.bin
missing late.bin: listed by index.xml
look at connectors.odx-f: index.xml does not list it
look at third/top.odx: index.xml does not list it
skipped connectors.odx-f: it has no ECU-MEM
look at top-order.json: there is no session, and so no task
fill in kit-order.json: tester (0E80 stands there)
fill in kit-order.json: task ALL: unit (1001), check (0202), key (none)
fill in kit-order.json: task LATE: unit (1002), check (0202), key (none)
fill in kit-2-order.json: tester (0E80 stands there)
fill in kit-2-order.json: task SECOND: unit (1001), check (0202), key (none)
fill in top-order.json: tester (0E80 stands there)
""")
    same("package: check", program("check", "kit-order.json"), (4, "shelf late.bin missing\n"))
    fill_in("kit-order.json", {"ALL": {}})
    bodies = [b"1", b"22", b"333", b"4444", b"55555", b"666666", b"1"]
    plan = digest(unit(0x1001, "ALL", [segment(0x1000 * (at + 1), body) for at, body in enumerate(bodies)]))
    same("package: filled in", program("check", "order.json"), (0, f"""\
plan {plan}
unit ALL 1001 segments 7 bytes 22 after -
units 1 bytes 22
"""))
    same("package: second", program("check", "kit-2-order.json"), (0, f"""\
plan {digest(unit(0x1001, "SECOND", [segment(0x9000, b"APP")]))}
unit SECOND 1001 segments 1 bytes 3 after -
units 1 bytes 3
"""))
    convert("kit.pdx", "again", {"PYTHONIOENCODING": "ascii", "PYTHONHASHSEED": "7"})
    os.remove("out/order.json")
    same("package: the same again", *({name: pathlib.Path(folder, name).read_bytes() for name in listed(folder)}
                                     for folder in ("again", "out")))


WHOLE = """<?xml version="1.0"?>
<o:ODX xmlns:o="urn:o" xmlns:xsi="http://www.w3.org/2001/XMLSchema-instance" xsi:type="PLAIN">
  <!-- a comment --><o:ECU-MEM ID="E &quot;1&quot;">
    one <P>two</P> &lt;three&gt; <P b=" x " a="ä"><![CDATA[ <four> & \\ ]]></P><?no text?> five &#228;\t
  </o:ECU-MEM>
</o:ODX>
"""

WHOLE_TREE = r"""{"tag":"ODX","attrs":{"xsi:type":"PLAIN"},"kids":[
{"tag":"ECU-MEM","attrs":{"ID":"E \"1\""},"text":"one  <three>  five ä","kids":[
{"tag":"P","text":"two"},
{"tag":"P","attrs":{"b":" x ","a":"ä"},"text":"<four> & \\"}]}]}
"""


def whole():
    """A whole catalogue, without name spaces, with text that stands around kids; no session, and parts that are not read."""
    put("Whole tree.ODX-F", WHOLE.encode())
    same("whole", convert("Whole tree.ODX-F"), """\
wrote Whole_tree.json: catalogue of Whole tree.ODX-F
wrote Whole_tree-order.json: order, tasks: 0
look at Whole_tree-order.json: there is no session, and so no task
fill in Whole_tree-order.json: tester (0E80 stands there)
""")
    same("whole: catalogue", pathlib.Path("out/Whole_tree.json").read_text(encoding="utf-8"), WHOLE_TREE)
    same("whole: check", program("check", "Whole_tree-order.json"), (2, "input Whole_tree.json missing /0 MEM\n"))


def unread():
    """Sessions that no task can name, more than a plan takes, or where check finds none; a method that it does not look at."""
    sessions = "".join(f'<SESSION ID="S{at}"><SHORT-NAME>S</SHORT-NAME></SESSION>\n' for at in range(1002))
    put("many.odx", f"""<ECU-MEM><MEM><SESSIONS>
<SESSION><SHORT-NAME>NONE</SHORT-NAME></SESSION>
<SESSION ID="{'ä' * 65}"/>
{sessions}</SESSIONS><DATABLOCKS><DATABLOCK>
<SEGMENTS><SEGMENT>
<ENCRYPT-COMPRESS-METHOD/></SEGMENT></SEGMENTS></DATABLOCK></DATABLOCKS><SESSIONS><SESSION ID="SECOND"/></SESSIONS></MEM>
<MEM><SESSIONS><SESSION ID="THIRD"/></SESSIONS></MEM>
<ECU-MEM><MEM><SESSIONS><SESSION ID="FOURTH"/></SESSIONS></MEM></ECU-MEM></ECU-MEM>""".encode())
    lines = convert("many.odx").split("\n")
    same("many: lines", lines[:9], [
        "wrote many.json: catalogue of many.odx",
        "wrote many-order.json: order, tasks: 1000",
        "look at many.odx, line 1007: ENCRYPT-COMPRESS-METHOD of a SEGMENT is not read by check",
        "no task for the SESSION of line 2: its ID has not 1 to 128 bytes",
        "no task for the SESSION of line 3: its ID has not 1 to 128 bytes",
        "no task for 2 sessions: an order has at most 1000 tasks",
        "look at many-order.json: a plan has at most 64 tasks",
        "fill in many-order.json: tester (0E80 stands there)",
        "fill in many-order.json: task S: unit (1001), check (0202), key (none)",
    ])
    same("many: last line", lines[-2:],
         ["fill in many-order.json: task S_1000: unit (13E8), check (0202), key (none)", ""])
    same("many: check", program("check", "many-order.json"), (2, "input many.json missing /0/0/0 ID\n"))


def deep():
    """As deep as a catalogue may nest, with attributes at each level."""
    mem = "<ECU-MEM><MEM/></ECU-MEM>"
    put("deep.odx-f", ("<ODX>" + mem + '<G a="">' * 62 + "</G>" * 62 + "</ODX>").encode())
    convert("deep.odx-f")
    same("deep: check", program("check", "deep-order.json"), (0, f"plan {digest()}\nunits 0 bytes 0\n"))


def large():
    """40 MB of Intel HEX, in a file of a package and inside a document."""
    lines, image = [], []
    for at in range(0, 65536, 16):
        byte = at >> 4 & 255
        lines.append(f":10{at:04X}00{byte:02X}" + f"{byte:02X}" * 15 + f"{-16 - (at >> 8) - at - 16 * byte & 255:02X}\n")
        image.append(bytes([byte]) * 16)
    lower = "".join(lines)
    text = "".join(f":02000004{upper:04X}{-6 - upper & 255:02X}\n" + lower for upper in range(224)) + ":00000001FF\n"
    data = b"".join(image) * 224
    same("large: size", len(text) > 40_000_000, True)
    document = (DOCUMENTS / "second.odx-f").read_text(encoding="utf-8").replace("BINARY", "INTEL-HEX")
    segments = document[document.index("<SEGMENTS>"):document.index("</SEGMENTS>") + len("</SEGMENTS>")]
    document = document.replace(segments, "")
    outside = document.replace("app.bin", "app.hex")
    inside = document.replace('<DATAFILE LATEBOUND-DATAFILE="false">app.bin</DATAFILE>', f"<DATA>{text}</DATA>")
    with zipfile.ZipFile("outside.pdx", "w", zipfile.ZIP_DEFLATED, compresslevel=1) as archive:
        archive.writestr("outside.odx-f", outside)
        archive.writestr("app.hex", text)
    put("inside.odx-f", inside.encode())
    lines = f"""\
plan {digest(unit(0x1001, "SECOND", [segment(0, data)]))}
unit SECOND 1001 segments 1 bytes 14680064 after -
units 1 bytes 14680064
"""
    for file, stem in [("outside.pdx", "outside"), ("inside.odx-f", "inside")]:
        convert(file, stem)
        same(f"large, {stem}", program("check", f"{stem}-order.json", folder=stem), (0, lines))
    same("large: file", sha(pathlib.Path("outside/app.hex").read_bytes()), sha(text.encode()))


def documented():
    """The five commands of docs/FORMATS.md, on a package of the example document, print what is said there."""
    docs = (TOP / "docs/FORMATS.md").read_text(encoding="utf-8")
    section = docs.split("## From ODX-F documents and PDX packages\n")[1].split("\n## ")[0]
    blocks = [textwrap.dedent(block) for block in re.findall(r"(?:^    .*\n)+", section, re.M)]
    commands, converted, checked, imaged = blocks
    words = [command.split() for command in commands.splitlines()]
    files = "".join(f"<FILE>{name}</FILE>" for name in ["motor.odx-f", "application.hex"])
    with zipfile.ZipFile("motor.pdx", "w") as archive:
        archive.writestr("index.xml", f"<CATALOG><ABLOCKS><ABLOCK><FILES>{files}</FILES></ABLOCK></ABLOCKS></CATALOG>")
        for name in ["motor.odx-f", "application.hex"]:
            archive.write(TOP / "examples" / name, name)
    same("documented: words", [words[0][:2], words[1][0], words[3][0], words[4][0]],
         [["python3", "tools/odx_tree.py"], "cd", "flash_top", "flash_top"])
    same("documented: lines", convert(*words[0][2:]), converted)
    fill_in(words[2][1], {"application": {"HWNR": "F191"}}, words[1][1])
    os.replace(f"{words[1][1]}/order.json", f"{words[1][1]}/{words[2][1]}")
    same("documented: check", program(*words[3][1:], folder=words[1][1]), (0, checked))
    same("documented: image", program(*words[4][1:], folder=words[1][1]), (0, imaged))
    os.remove("motor.pdx")
    same("documented: example", convert(str(TOP / "examples/motor.odx-f"), "example"), converted)


CASES = [formats, parts, refused, shared, package, whole, unread, deep, large, documented]


def main():
    ast.parse(SCRIPT.read_text(encoding="utf-8"), feature_version=(3, 8))
    for case in CASES:
        if case.__name__ in (sys.argv[2:] or [case.__name__]):
            with tempfile.TemporaryDirectory() as folder:
                os.chdir(folder)
                case()
                os.chdir(TOP)
    print(f"documents and packages: {counts['compared']} comparisons, {counts['wrong']} wrong")
    sys.exit(counts["wrong"] > 0)


main()
