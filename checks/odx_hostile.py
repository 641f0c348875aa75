"""tools/odx_tree.py over documents, packages and words that it refuses: each with its line, typed here, and its status.

Nothing is written of any of them; each ends within a minute of processor time and 1 GiB of memory. See odx_tree.sh.
"""
import io
import os
import pathlib
import resource
import stat
import struct
import subprocess
import sys
import tempfile
import warnings
import zipfile

TOP = pathlib.Path(__file__).resolve().parent.parent
SCRIPT = TOP / "tools/odx_tree.py"
MEBIBYTE = 1024 * 1024
counts = {"tried": 0, "wrong": 0}
# That a name stands twice is meant.
warnings.simplefilter("ignore", UserWarning)


def limited(largest_file):
    """Limits on the script's processor time, memory and files."""
    resource.setrlimit(resource.RLIMIT_CPU, (60, 60))
    resource.setrlimit(resource.RLIMIT_AS, (1024 * MEBIBYTE, 1024 * MEBIBYTE))
    resource.setrlimit(resource.RLIMIT_FSIZE, (largest_file, largest_file))


def refused(what, words, line, status=2, largest_file=resource.RLIM_INFINITY):
    """Whether the script ends with this status and this last line, and with no word about what it wrote."""
    counts["tried"] += 1
    ran = subprocess.run([sys.executable, str(SCRIPT), *words], stdout=subprocess.PIPE, stderr=subprocess.PIPE,
                         preexec_fn=lambda: limited(largest_file))
    said = ran.stderr.decode().rstrip("\n")
    got = ran.returncode, ran.stdout, said if status == 2 else said.split("\n")[-1]
    if got != (status, b"", f"odx_tree.py: {line}"):
        counts["wrong"] += 1
        print(f"{what}: wanted {status} and\n{line}\ngot {ran.returncode} and\n{said}")


def refused_file(what, file, data, line):
    """A file of these bytes is refused with this line, and no folder is made."""
    pathlib.Path(file).write_bytes(data)
    refused(what, [file, "out"], line)
    os.remove(file)
    if os.path.lexists("out"):
        counts["wrong"] += 1
        print(f"{what}: a folder was made")
        os.rename("out", f"out{counts['wrong']}")


# Documents.

ODX = '<?xml version="1.0" encoding="UTF-8"?>\n{}<ODX>\n<ECU-MEM>{}</ECU-MEM>\n</ODX>\n'
LAUGHS = "".join(f'<!ENTITY l{at} "{f"&l{at - 1};" * 10}">\n' for at in range(1, 10))


def document(inner, head=""):
    return ODX.format(head, inner).encode()


def naming(path):
    """A document that names a data file on its fourth line."""
    return document(f'<MEM>\n<FLASHDATAS><FLASHDATA ID="F"><DATAFILE>{path}</DATAFILE></FLASHDATA></FLASHDATAS></MEM>')


DTD = "bad.odx-f, line {}, element {}: a document type declaration is refused"
NO_XML = "bad.odx-f, line {}: no XML: {}"
ENCODING = "bad.odx-f, line 1: the encoding is {}, and only UTF-8 and UTF-16 are read"
DEEP = "bad.odx-f, line {}, element G: elements nest more than 63 deep"
MARKUP = "bad.odx-f, line 1: a tag, a comment or an instruction has more than 1048576 bytes"
NAMED = "bad.odx-f, line 4, element DATAFILE: {}"
LEAVES = NAMED.format("a path that leaves the folder is refused: {}")

BAD_DOCUMENTS = {
    "a bomb of entities": (document("&l9;", f'<!DOCTYPE ODX [<!ENTITY l0 "ha">\n{LAUGHS}]>\n'), DTD.format(2, "ODX")),
    "one long entity": (document("&l;" * 1000, f'<!DOCTYPE x [<!ENTITY l "{"ha" * 5000}">]>'), DTD.format(2, "x")),
    "an entity of a file": (document("&f;", '<!DOCTYPE ODX [<!ENTITY f SYSTEM "file:///etc/passwd">]>\n'), DTD.format(2, "ODX")),
    "a parameter entity": (document("", '<!DOCTYPE ODX [<!ENTITY % p SYSTEM "p.dtd"> %p;]>\n'), DTD.format(2, "ODX")),
    "a DTD elsewhere": (document("", '<!DOCTYPE ODX SYSTEM "http://localhost/odx.dtd">\n'), DTD.format(2, "ODX")),
    "an entity of no DTD": (document("&lost;"), "bad.odx-f, line 3, element ECU-MEM: no XML: undefined entity"),
    "10,000 levels": (document("\n" + "<G>" * 10_000 + "</G>" * 10_000), DEEP.format(4)),
    "64 levels": (document("\n<G>" * 62 + "</G>" * 62), DEEP.format(65)),
    "1,000,001 elements": (document("<G/>" * 999_999), "bad.odx-f, line 3, element G: more than 1000000 elements"),
    "a long tag": (b"<ODX " + b" ".join(b'a%d=""' % at for at in range(200_000)) + b"/>", MARKUP),
    "a long comment": (b"<!--" + b" " * 2 * MEBIBYTE + b"-->", MARKUP),
    "another encoding": (b'<?xml version="1.0" encoding="ISO-8859-1"?>\n<ECU-MEM>\xe4</ECU-MEM>', ENCODING.format("ISO-8859-1")),
    "UTF-7": (b'<?xml version="1.0" encoding="utf-7"?>\n<ECU-MEM/>', ENCODING.format("utf-7")),
    "an unknown encoding": (b'<?xml version="1.0" encoding="x-none"?>\n<ECU-MEM/>', ENCODING.format("x-none")),
    "bytes that are no UTF-8": (b"<ODX>\n<ECU-MEM>\xe4</ECU-MEM></ODX>",
                                "bad.odx-f, line 2, element ECU-MEM: no XML: not well-formed (invalid token)"),
    "no byte": (b"", NO_XML.format(1, "no element found")),
    "a text": (b"flash\n", NO_XML.format(1, "syntax error")),
    "cut off": (document("")[:-7], "bad.odx-f, line 4, element ODX: no XML: no element found"),
    "tags that do not meet": (document("\n<MEM>"), "bad.odx-f, line 4, element MEM: no XML: mismatched tag"),
    "two roots": (document("") + b"<ODX/>", NO_XML.format(5, "junk after document element")),
    "an attribute twice": (document('\n<MEM A="" A=""/>'), "bad.odx-f, line 4, element ECU-MEM: no XML: duplicate attribute"),
    "no ECU-MEM": (b"<ODX><DIAG-LAYER-CONTAINER/></ODX>", "bad.odx-f: there is no ODX-F document with an ECU-MEM"),
    "64 MiB and a byte": (b"<ODX>" + b" " * (64 * MEBIBYTE - 4), "bad.odx-f: more than 67108864 bytes"),
    "a catalogue of over 64 MiB": (document('"' * 33 * MEBIBYTE),
                                   "bad.odx-f, line 2, element ODX: the catalogue would have more than 67108864 bytes"),
    "a data file above": (naming("../a.bin"), LEAVES.format("../a.bin")),
    "a data file above a folder": (naming("a/../../a.bin"), LEAVES.format("a/../../a.bin")),
    "a data file above, with backslashes": (naming("a\\..\\..\\a.bin"), LEAVES.format("a\\..\\..\\a.bin")),
    "an absolute data file": (naming("/etc/passwd"), LEAVES.format("/etc/passwd")),
    "a data file of a drive": (naming("c:a.bin"), LEAVES.format("c:a.bin")),
    "a data file of a share": (naming("\\\\host\\a.bin"), LEAVES.format("\\\\host\\a.bin")),
    "a data file of an address": (naming("file:///etc/passwd"), LEAVES.format("file:///etc/passwd")),
    "a data file by a link": (naming("link.bin"), NAMED.format("link.bin: a link that leaves the folder is refused")),
    "a data file by a folder's link": (naming("above/a.bin"), NAMED.format("above/a.bin: a link that leaves the folder is refused")),
    "a folder as a data file": (naming("folder"), NAMED.format("folder: no plain file")),
    "a data file of 64 MiB and a byte": (naming("large.bin"), NAMED.format("large.bin: more than 67108864 bytes")),
}


def documents():
    os.symlink("/etc/passwd", "link.bin")
    os.symlink("..", "above")
    os.mkdir("folder")
    with open("large.bin", "wb") as file:
        file.truncate(64 * MEBIBYTE + 1)
    pathlib.Path("../a.bin").write_bytes(b"a")
    for what, (data, line) in BAD_DOCUMENTS.items():
        refused_file(what, "bad.odx-f", data, line)


# Packages.

INDEX = ('<?xml version="1.0" encoding="UTF-8"?>\n<CATALOG><ABLOCKS><ABLOCK><FILES>\n<FILE>{}</FILE>\n'
         "</FILES></ABLOCK></ABLOCKS></CATALOG>\n")
GOOD = {"index.xml": INDEX.format("a.odx-f"), "a.odx-f": naming("app.bin"), "app.bin": b"app"}


def zipped(files, method=zipfile.ZIP_DEFLATED, mode=0):
    """A zip of some (name, content), of which the last has this mode."""
    pairs = list(files.items() if isinstance(files, dict) else files)
    archive = io.BytesIO()
    with zipfile.ZipFile(archive, "w", method) as writer:
        for name, data in pairs:
            member = zipfile.ZipInfo(name)
            member.compress_type = method
            member.external_attr = (mode if name == pairs[-1][0] else 0) << 16
            writer.writestr(member, data)
    return archive.getvalue()


def twice(name, other=None):
    """A good package with one member more of this name."""
    return zipped([*GOOD.items(), (name, b"1"), (other or name, b"2")])


def patched(archive, name, at, value):
    """A zip with other bytes at a place of the directory's header of a member."""
    place = archive.index(b"PK\1\2")
    while archive[place + 46:place + 46 + len(name)] != name.encode():
        place = archive.index(b"PK\1\2", place + 1)
    return archive[:place + at] + value + archive[place + at + len(value):]


def with_size(archive, name, size):
    """A zip whose directory says another size of a member."""
    return patched(archive, name, 24, struct.pack("<I", size))


def crowded(count):
    """A zip whose directory has many members and no byte of them."""
    header = b"PK\1\2" + bytes(42)
    return header * count + b"PK\5\6" + struct.pack("<HHHHIIH", 0, 0, count & 65535, count & 65535, 46 * count, 0, 0)


def of_many(count):
    """A zip of many members whose directory says 64 MiB of each."""
    archive = zipped([(f"{at:02}.bin", b"") for at in range(count)])
    for at in range(count):
        archive = with_size(archive, f"{at:02}.bin", 64 * MEBIBYTE)
    return archive


def indexed(index):
    return zipped({**GOOD, "index.xml": index})


MEMBER = "bad.pdx, {}: a path that leaves the folder is refused"
DOCUMENT = "bad.pdx, a.odx-f, line 4, element DATAFILE: {}"
IN_INDEX = "bad.pdx, index.xml, line {}, element {}: {}"
BOMB = zipped({**GOOD, "app.bin": bytes(65 * MEBIBYTE)})

BAD_PACKAGES = {
    "no zip": (b"flash", "bad.pdx: the zip cannot be read: File is not a zip file"),
    "a zip cut off": (zipped(GOOD)[:-30], "bad.pdx: the zip cannot be read: File is not a zip file"),
    "a bomb that says its size": (BOMB, "bad.pdx, app.bin: more than 67108864 bytes"),
    "a bomb that hides its size": (with_size(BOMB, "app.bin", 3),
                                   DOCUMENT.format("bad.pdx, app.bin: the zip cannot be read: Bad CRC-32 for file 'app.bin'")),
    "over 1 GiB": (of_many(17), "bad.pdx, 16.bin: the package has more than 1073741824 bytes up to here"),
    "too many members": (crowded(100_000), "bad.pdx: the zip cannot be read: the list of members has more than 4194304 bytes"),
    "a wrong sum": (patched(zipped(GOOD), "app.bin", 16, b"none"),
                    DOCUMENT.format("bad.pdx, app.bin: the zip cannot be read: Bad CRC-32 for file 'app.bin'")),
    "an encrypted member": (patched(zipped(GOOD), "app.bin", 8, b"\1\0"), DOCUMENT.format("bad.pdx, app.bin: encrypted")),
    "a member of bzip2": (zipped(GOOD, zipfile.ZIP_BZIP2), "bad.pdx, index.xml: packed by method 12, and only deflate is read"),
    "a member above": (zipped({**GOOD, "../a.bin": b""}), MEMBER.format("../a.bin")),
    "a folder above": (zipped({**GOOD, "a/../../": b""}), MEMBER.format("a/../../")),
    "a member above, with backslashes": (zipped({**GOOD, "..\\a.bin": b""}), MEMBER.format("..\\a.bin")),
    "an absolute member": (zipped({**GOOD, "/a.bin": b""}), MEMBER.format("/a.bin")),
    "a member of a drive": (zipped({**GOOD, "C:/a.bin": b""}), MEMBER.format("C:/a.bin")),
    "a link": (zipped({**GOOD, "link": "/etc/passwd"}, mode=stat.S_IFLNK | 0o777), "bad.pdx, link: a link is refused"),
    "a pipe": (zipped({**GOOD, "pipe": b""}, mode=stat.S_IFIFO | 0o600), "bad.pdx, pipe: no plain file"),
    "a name twice": (twice("a.bin"), "bad.pdx, a.bin: the name stands twice"),
    "a name twice, spelled otherwise": (twice("x/a.bin", "./x//a.bin"), "bad.pdx, ./x//a.bin: the name stands twice"),
    "a name that a terminal would obey": (twice("\x1b[2J"), "bad.pdx, ?[2J: the name stands twice"),
    "an index that is no XML": (indexed("<CATALOG>\n<ABLOCKS>"), IN_INDEX.format(2, "ABLOCKS", "no XML: no element found")),
    "an index with a DTD": (indexed("<!DOCTYPE CATALOG []><CATALOG/>"),
                            IN_INDEX.format(1, "CATALOG", "a document type declaration is refused")),
    "an index of another kind": (indexed("<ODX/>"), IN_INDEX.format(1, "ODX", "the index of a package is a CATALOG")),
    "an index without a file": (indexed("\n<CATALOG/>"), IN_INDEX.format(2, "CATALOG", "the index lists no FILE")),
    "an index of a document that is not there": (indexed(INDEX.format("b.odx-f")),
                                                 IN_INDEX.format(3, "FILE", "b.odx-f is not in the package")),
    "an index that leaves the package": (indexed(INDEX.format("../a.odx-f")), IN_INDEX.format(3, "FILE", "no path within the package")),
    "an index with an empty name": (indexed(INDEX.format(" ")), IN_INDEX.format(3, "FILE", "no path within the package")),
    "no document": (zipped({"app.bin": b"app"}), "bad.pdx: there is no ODX-F document with an ECU-MEM"),
    "no document of flash data": (zipped({"a.odx-f": "<ODX/>", "b.odx-d": document("")}),
                                  "bad.pdx: there is no ODX-F document with an ECU-MEM"),
    "a bomb of entities in a package": (zipped({"a.odx-f": BAD_DOCUMENTS["a bomb of entities"][0]}),
                                        "bad.pdx, a.odx-f, line 2, element ODX: a document type declaration is refused"),
    "a data file above a package": (zipped({**GOOD, "a.odx-f": naming("../app.bin")}),
                                    DOCUMENT.format("a path that leaves the folder is refused: ../app.bin")),
}


def packages():
    for what, (data, line) in BAD_PACKAGES.items():
        refused_file(what, "bad.pdx", data, line)
    refused_file("a package under another name", "bad.odx-f", BOMB, "bad.odx-f, app.bin: more than 67108864 bytes")


# Words, and folders.


def words():
    needs = "the following arguments are required: "
    refused("no word", [], needs + "FILE, FOLDER", 1)
    refused("one word", ["a"], needs + "FOLDER", 1)
    refused("three words", ["a", "b", "c"], "unrecognized arguments: c", 1)
    refused("an option", ["--force", "a", "b"], "unrecognized arguments: --force", 1)
    refused("no file", ["a.odx-f", "out"], "a.odx-f: there is no such file")
    os.mkdir("a.odx-f")
    refused("a folder as the file", ["a.odx-f", "out"], "a.odx-f: no plain file")


def folders():
    pathlib.Path("a.pdx").write_bytes(zipped({**GOOD, "app.bin": os.urandom(100_000)}))
    pathlib.Path("file").write_bytes(b"")
    os.mkdir("full")
    pathlib.Path("full/kept").write_bytes(b"kept")
    os.mkdir("empty")
    refused("a file as the folder", ["a.pdx", "file"], "file: it is no folder")
    refused("a folder that is not empty", ["a.pdx", "full"], "full: the folder is not empty")
    refused("a folder in none", ["a.pdx", "none/out"], "none/out: it could not be written: No such file or directory")
    line = "{}: it could not be written: File too large"
    refused("a write that fails in a new folder", ["a.pdx", "new"], line.format("new"), largest_file=50_000)
    refused("a write that fails in an empty folder", ["a.pdx", "empty"], line.format("empty"), largest_file=50_000)
    left = sorted(os.listdir(".")), os.listdir("full"), os.listdir("empty")
    if left != (["a.pdx", "empty", "file", "full"], ["kept"], []):
        counts["wrong"] += 1
        print(f"folders: left {left}")


def main():
    for case in [documents, packages, words, folders]:
        with tempfile.TemporaryDirectory() as above:
            os.mkdir(os.path.join(above, "here"))
            os.chdir(os.path.join(above, "here"))
            case()
            os.chdir(TOP)
    print(f"hostile files and wrong words: {counts['tried']}, {counts['wrong']} wrong")
    sys.exit(counts["wrong"] > 0)


main()
