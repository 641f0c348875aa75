#!/usr/bin/env python3
"""Turns flash data, as manufacturers ship them, into a folder that `check` takes.

Usage: tools/odx_tree.py FILE FOLDER

FILE is an ODX-F document (.odx-f, .odx: XML of ISO 22901-1) with its data files beside it, or a PDX package (.pdx: a
zip of documents, their data files and an index.xml). FOLDER is new or empty. For each document that has an ECU-MEM, and
whose name without its ending is STEM, the folder gets

    STEM.json        the catalogue: the elements of the document, as docs/FORMATS.md describes them
    STEM-order.json  a first order with a task for each session, to be completed by hand

and the data files that its FLASHDATA elements name. A line is printed for each file that was written, for each name
that was changed, for each data file that is missing, for what is to be looked at, and for what is left to be filled in.

Status 0; 1 where the words are not in the form; 2 where FILE or FOLDER does not serve, with a line that names the file,
the line and the element. Nothing is written before all was read, and what was written is taken away where writing fails.

What a document says is passed on as it stands, so that `check` judges it. Python 3.8 or later, and nothing else.
"""
import argparse
import collections
import contextlib
import io
import itertools
import json
import os
import re
import stat
import struct
import sys
import zipfile
import zlib
from xml.etree import ElementTree
from xml.parsers import expat

# A file that is read or written, as `check` has it, and all files of a package.
FILE_LIMIT = 64 * 1024 * 1024
PACKAGE_LIMIT = 1024 * 1024 * 1024
# An element takes an object and a list of JSON text, which nests at most 127 deep where `check` reads it.
LEVEL_LIMIT = 63
ELEMENT_LIMIT = 1_000_000
# A tag, a comment or a processing instruction.
MARKUP_LIMIT = 1024 * 1024
# The list of members at the end of a package.
DIRECTORY_LIMIT = 4 * 1024 * 1024
# What the order file takes.
TASK_LIMIT = 1000
UNIT_LIMIT = 64
TASK_NAME_LIMIT = 32
FILE_NAME_LIMIT = 128
SESSION_ID_LIMIT = 128

PIECE = 64 * 1024
BLANKS = " \t\r\n"
INDEX = "index.xml"

# What stands in a first order until it is filled in. The tester's is one of external test equipment (ISO 13400-2).
TESTER = "0E80"
FIRST_UNIT = 0x1001
CHECK_ROUTINE = "0202"

# Types of an IDENT-VALUE that `check` compares as they are meant: texts and bytes.
COMPARED_TYPES = ("A_ASCIISTRING", "A_UTF8STRING", "A_BYTEFIELD")
# Parts of an element that `check` does not read and that matter to who programs a unit.
UNREAD_PARTS = {"SESSION": "SECURITYS", "DATABLOCK": "SECURITYS", "SEGMENT": "ENCRYPT-COMPRESS-METHOD"}


class Refusal(Exception):
    """Why FILE or FOLDER does not serve, behind the file, the line and the element that it speaks of."""

    def __init__(self, text, file, line=None, element=None):
        place = [file]
        if line is not None:
            place.append(f"line {line}")
        if element is not None:
            place.append(f"element {shown(element)}")
        super().__init__(f"{', '.join(place)}: {text}")


def shown(text):
    """A text of a file as it is printed: short, on one line, and without a character that a terminal would obey."""
    plain = "".join(c if c.isprintable() else "?" for c in text[:FILE_NAME_LIMIT])
    return plain if len(text) <= FILE_NAME_LIMIT else plain + ".."


def listing(texts):
    """Some texts in one line, of which the first 32 are named."""
    named = ", ".join(shown(text) for text in texts[:32])
    return named if len(texts) <= 32 else f"{named} and {len(texts) - 32} more"


# Documents: XML to a tree.


class Element(ElementTree.Element):
    """An element that knows the line of its start tag."""

    __slots__ = ("line",)


def local_name(name):
    """An element's name without its name space's prefix."""
    return name.rpartition(":")[2] or name


def is_attribute(name):
    """Whether an attribute is more than a declaration of a name space."""
    return name != "xmlns" and not name.startswith("xmlns:")


class DocumentReader:
    """Reads one XML document. A document type declaration is refused where it begins, so no entity is ever declared."""

    def __init__(self, file):
        self.file = file
        self.open_tags = []
        self.elements = 0
        self.since_event = 0
        self.builder = ElementTree.TreeBuilder(element_factory=Element)
        self.parser = expat.ParserCreate()
        self.parser.buffer_text = True
        self.parser.buffer_size = PIECE
        self.parser.StartElementHandler = self.start
        self.parser.EndElementHandler = self.end
        self.parser.CharacterDataHandler = self.text
        self.parser.CommentHandler = self.parser.ProcessingInstructionHandler = self.skip
        self.parser.XmlDeclHandler = self.declaration
        self.parser.StartDoctypeDeclHandler = self.doctype
        self.parser.EntityDeclHandler = self.parser.ExternalEntityRefHandler = self.entity
        self.parser.SkippedEntityHandler = self.entity

    def read(self, pieces):
        """The root element of the document whose bytes come in pieces."""
        try:
            for piece in pieces:
                self.since_event += len(piece)
                self.parser.Parse(piece, False)
                if self.since_event > MARKUP_LIMIT:
                    raise self.refusal(f"a tag, a comment or an instruction has more than {MARKUP_LIMIT} bytes")
            self.parser.Parse(b"", True)
        except expat.ExpatError as error:
            raise self.refusal(f"no XML: {expat.ErrorString(error.code)}") from None
        return self.builder.close()

    def refusal(self, text, element=None):
        """A refusal at the place that is read, of the innermost open element where no other is named."""
        innermost = self.open_tags[-1] if self.open_tags else None
        return Refusal(text, self.file, self.parser.CurrentLineNumber, element or innermost)

    def start(self, name, attributes):
        """A start tag, once the number of levels and of elements is within its bound."""
        self.since_event = 0
        self.elements += 1
        self.open_tags.append(local_name(name))
        if len(self.open_tags) > LEVEL_LIMIT:
            raise self.refusal(f"elements nest more than {LEVEL_LIMIT} deep")
        if self.elements > ELEMENT_LIMIT:
            raise self.refusal(f"more than {ELEMENT_LIMIT} elements")
        kept = {name: value for name, value in attributes.items() if is_attribute(name)}
        self.builder.start(self.open_tags[-1], kept).line = self.parser.CurrentLineNumber

    def end(self, _name):
        self.since_event = 0
        self.builder.end(self.open_tags.pop())

    def text(self, text):
        self.since_event = 0
        self.builder.data(text)

    def skip(self, *_words):
        self.since_event = 0

    def declaration(self, _version, encoding, _standalone):
        """The XML declaration. Without one, or without an encoding, the document is UTF-8, or UTF-16 by its first bytes."""
        self.since_event = 0
        if encoding is not None and encoding.upper() not in ("UTF-8", "UTF-16"):
            raise self.refusal(f"the encoding is {shown(encoding)}, and only UTF-8 and UTF-16 are read")

    def doctype(self, name, *_words):
        raise self.refusal("a document type declaration is refused", name)

    def entity(self, *_words):
        raise self.refusal("an entity is refused")


def text_of(element):
    """What an element says itself, without the blanks at both ends."""
    return "".join([element.text or "", *(kid.tail or "" for kid in element)]).strip(BLANKS)


def say(element, text):
    """Gives an element another text."""
    element.text = text
    for kid in element:
        kid.tail = None


def kids_of(element, *tags):
    """The kids with the last tag, going down by the first kid with each tag before it, as `check` goes."""
    *holders, tag = tags
    for holder in holders:
        element = next((kid for kid in element if kid.tag == holder), ())
    return [kid for kid in element if kid.tag == tag]


def short_name(element):
    """The text of the SHORT-NAME, or nothing."""
    return next((text_of(kid) for kid in kids_of(element, "SHORT-NAME")), "")


# Catalogues: the tree to JSON.


# The JSON text of a text, or of an object of texts.
json_text = json.JSONEncoder(ensure_ascii=False, separators=(",", ":")).encode


def put_json(element, put):
    """Puts the JSON text of an element, a line for each element. Members that would be empty are left out."""
    put(f'{{"tag":{json_text(element.tag)}')
    if element.attrib:
        put(f',"attrs":{json_text(element.attrib)}')
    text = text_of(element)
    if text:
        put(f',"text":{json_text(text)}')
    between = ',"kids":[\n'
    for kid in element:
        put(between)
        put_json(kid, put)
        between = ",\n"
    put("]}" if len(element) else "}")


def catalogue_of(root, file):
    """The bytes of a document's catalogue."""
    pieces = []
    put_json(root, pieces.append)
    catalogue = ("".join(pieces) + "\n").encode("utf-8")
    if len(catalogue) > FILE_LIMIT:
        raise Refusal(f"the catalogue would have more than {FILE_LIMIT} bytes", file, root.line, root.tag)
    return catalogue


# Orders: sessions to tasks.


def ecu_mems(element):
    """The ECU-MEM elements (ISO 22901-1, ECU memory) that are the root or stand below it, none inside another."""
    if element.tag == "ECU-MEM":
        yield element
        return
    for kid in element:
        yield from ecu_mems(kid)


def sessions_of(root):
    """The SESSION elements of a document (ISO 22901-1: ECU-MEM, MEM, SESSIONS)."""
    return [session for mem in ecu_mems(root) for session in kids_of(mem, "MEM", "SESSIONS", "SESSION")]


def takes_task(session):
    """Whether an order can name the session."""
    return 1 <= len(session.get("ID", "").encode("utf-8")) <= SESSION_ID_LIMIT


def task_name(session, taken):
    """The session's short name as a task's name that no earlier task has."""
    plain = re.sub("[^A-Za-z0-9_]", "_", short_name(session) or session.get("ID"))
    for number in itertools.count(1):
        mark = "" if number == 1 else f"_{number}"
        name = plain[: TASK_NAME_LIMIT - len(mark)] + mark
        if name not in taken:
            taken.add(name)
            return name


def tasks_of(sessions):
    """A task for each session, with the names of its expected idents, for which an order has identifiers."""
    taken = set()
    for number, session in enumerate(sessions):
        unit = f"{FIRST_UNIT + number:04X}"
        task = {"name": task_name(session, taken), "unit": unit, "check": CHECK_ROUTINE, "session": session.get("ID")}
        yield task, [short_name(ident) for ident in kids_of(session, "EXPECTED-IDENTS", "EXPECTED-IDENT")]


def lines_to_fill_in(order, tasks):
    """A line for each member of an order that is a guess or is not there."""
    yield f"fill in {order}: tester ({TESTER} stands there)"
    for task, idents in tasks:
        place = f"fill in {order}: task {task['name']}"
        yield f"{place}: unit ({task['unit']}), check ({CHECK_ROUTINE}), key (none)"
        if idents:
            yield f"{place}: dids of {listing(idents)}"


def lines_of_sessions(order, sessions, chosen):
    """What is to be said of sessions that an order or a plan does not take."""
    for session in sessions:
        if not takes_task(session):
            yield f"no task for the SESSION of line {session.line}: its ID has not 1 to {SESSION_ID_LIMIT} bytes"
    if len(chosen) > TASK_LIMIT:
        yield f"no task for {len(chosen) - TASK_LIMIT} sessions: an order has at most {TASK_LIMIT} tasks"
    if len(chosen) > UNIT_LIMIT:
        yield f"look at {order}: a plan has at most {UNIT_LIMIT} tasks"
    if not chosen:
        yield f"look at {order}: there is no session, and so no task"


def lines_of_unread(root, file):
    """What a document says and `check` does not read, or reads otherwise than it may be meant."""
    for value in root.iter("IDENT-VALUE"):
        kind = value.get("TYPE", COMPARED_TYPES[0])
        if kind not in COMPARED_TYPES:
            yield f"look at {file}, line {value.line}: an IDENT-VALUE of type {shown(kind)} is compared as its text"
    for tag, part in UNREAD_PARTS.items():
        for element in root.iter(tag):
            if kids_of(element, part):
                yield f"look at {file}, line {element.line}: {part} of a {tag} is not read by check"


# Names of the new folder's files.


class Names:
    """Names as the order file takes them, of which no two differ only in case, so that they can lie in any folder."""

    def __init__(self):
        self.taken = set()
        self.marks = {}

    def take(self, said, endings):
        """The first of SAID, SAID-2, SAID-3 .. with which each ending gives a free name; these are then taken."""
        base = re.sub("[^A-Za-z0-9._-]", "_", said)
        if not re.match("[A-Za-z0-9_]", base):
            base = "_" + base
        room = FILE_NAME_LIMIT - max(map(len, endings))
        wanted = (base[:room] + endings[0]).lower()
        for number in itertools.count(self.marks.get(wanted, 1)):
            mark = "" if number == 1 else f"-{number}"
            stem = base[: room - len(mark)] + mark
            names = [(stem + ending).lower() for ending in endings]
            if self.taken.isdisjoint(names):
                self.taken.update(names)
                self.marks[wanted] = number + 1
                return stem

    def document(self, path):
        """The stem of a document's files."""
        return self.take(os.path.splitext(os.path.basename(path))[0], [".json", "-order.json"])

    def data(self, said):
        """The name of a data file."""
        ending = re.search(r"\.[A-Za-z0-9]{1,16}\Z|\Z", said).group()
        return self.take(said[: len(said) - len(ending)], [ending]) + ending


# Where documents and data files are read from: a document with files beside it, or a package. Either has the paths of its
# documents, lines about itself, and a way to find a data file and to read a file in pieces.


def leaves(said):
    """Whether a path leaves the folder that it is said in: it is absolute, has a drive or a scheme, or goes up."""
    parts = said.replace("\\", "/").split("/")
    return parts[0] == "" != said or ".." in parts or re.match("[A-Za-z][A-Za-z0-9+.-]*:", said) is not None


def cleaned(said):
    """A path with `/` alone between its parts; empty where it names nothing."""
    return "/".join(part for part in said.replace("\\", "/").split("/") if part not in ("", "."))


def is_document(path, media_type=""):
    """Whether a file may be an ODX-F document, by its ending or by the MIME-TYPE that an index gives it."""
    return path.lower().endswith((".odx-f", ".odx")) or media_type.lower().endswith("odx-f")


@contextlib.contextmanager
def reading(file):
    """Makes a refusal of what goes wrong while a file or a folder is read."""
    try:
        yield
    except OSError as error:
        raise Refusal(f"it cannot be read: {error.strerror or error}", file) from None


@contextlib.contextmanager
def unpacking(file):
    """Makes a refusal of what goes wrong while a package is read, for which zipfile has many words."""
    try:
        yield
    except OSError as error:
        raise Refusal(f"the zip cannot be read: {error.strerror or error}", file) from None
    except (zipfile.BadZipFile, zlib.error, EOFError, RuntimeError, ValueError, OverflowError, struct.error) as error:
        raise Refusal(f"the zip cannot be read: {shown(str(error)) or 'it ends early'}", file) from None


def pieces_of(stream, file):
    """The bytes of a stream in pieces, refused once they are more than a file may have, whatever was said before."""
    count = 0
    for piece in iter(lambda: stream.read(PIECE), b""):
        count += len(piece)
        if count > FILE_LIMIT:
            raise Refusal(f"more than {FILE_LIMIT} bytes", file)
        yield piece


class SingleDocument:
    """A document with its data files beside it."""

    def __init__(self, file):
        self.file = file
        self.folder = os.path.dirname(file)
        self.documents = [os.path.basename(file)]
        self.lines = []
        self.place = f"not beside {shown(self.documents[0])}"

    def label(self, path):
        """How a file is named in a refusal, and where it lies."""
        return os.path.join(self.folder, path)

    def find(self, _document, path):
        """The path of a data file that a document names, or None where there is none."""
        file = self.label(path)
        if not os.path.lexists(file):
            return None
        real = os.path.realpath(file)
        within = os.path.join(os.path.realpath(self.folder or "."), "")
        if not real.startswith(within):
            raise Refusal("a link that leaves the folder is refused", file)
        if not os.path.isfile(real):
            raise Refusal("no plain file", file)
        return path

    def pieces(self, path):
        """The bytes of a file."""
        file = self.label(path)
        with reading(file), open(file, "rb") as stream:
            yield from pieces_of(stream, file)

    def close(self):
        """Nothing stays open."""


class PackageFile(io.BufferedReader):
    """A package whose list of members is read only where it is short, since zipfile reads it by one call."""

    def read(self, size=-1):
        if size is not None and size > DIRECTORY_LIMIT:
            raise zipfile.BadZipFile(f"the list of members has more than {DIRECTORY_LIMIT} bytes")
        return super().read(size)


def refusal_of_member(member):
    """Why a member of a package is refused before any byte of it is unpacked, or None."""
    kind = stat.S_IFMT(member.external_attr >> 16)
    if leaves(member.filename):
        return "a path that leaves the folder is refused"
    if kind == stat.S_IFLNK:
        return "a link is refused"
    if kind not in (0, stat.S_IFREG, stat.S_IFDIR):
        return "no plain file"
    if member.file_size > FILE_LIMIT:
        return f"more than {FILE_LIMIT} bytes"
    return None


class Package:
    """A PDX package (ISO 22901-1): a zip of documents and data files, listed by its index.xml."""

    def __init__(self, file):
        self.file = file
        self.lines = []
        self.place = f"not in {shown(os.path.basename(file))}"
        with unpacking(file):
            self.stream = PackageFile(io.FileIO(file))
            self.archive = zipfile.ZipFile(self.stream)
        self.members = self.sound_members()
        listed = self.listed_files()
        self.documents = [path for path in sorted(self.members) if is_document(path, listed.get(path, ""))]
        for path in self.documents:
            if listed and path not in listed:
                self.lines.append(f"look at {shown(path)}: {INDEX} does not list it")

    def label(self, path):
        """How a member is named in a refusal."""
        return f"{self.file}, {shown(path)}"

    def sound_members(self):
        """The members by their paths. A package of which one is refused is refused whole."""
        members = {}
        total = 0
        for member in self.archive.infolist():
            path = cleaned(member.filename)
            why = refusal_of_member(member)
            total += member.file_size
            if why is None and path in members:
                why = "the name stands twice"
            if why is None and total > PACKAGE_LIMIT:
                why = f"the package has more than {PACKAGE_LIMIT} bytes up to here"
            if why is not None:
                raise Refusal(why, self.label(member.filename))
            if not member.filename.endswith("/"):
                members[path] = member
        return members

    def listed_files(self):
        """The MIME-TYPE of each file that the index lists (ISO 22901-1, PDX: CATALOG, ABLOCKS, ABLOCK, FILES, FILE)."""
        if INDEX not in self.members:
            self.lines.append(f"look at {shown(self.file)}: it has no {INDEX}, so documents are known by their names")
            return {}
        file = self.label(INDEX)
        root = DocumentReader(file).read(self.pieces(INDEX))
        if root.tag != "CATALOG":
            raise Refusal("the index of a package is a CATALOG", file, root.line, root.tag)
        listed = {}
        for element in root.iter("FILE"):
            path = cleaned(text_of(element))
            if leaves(text_of(element)) or not path:
                raise Refusal("no path within the package", file, element.line, element.tag)
            listed[path] = element.get("MIME-TYPE", "")
            if path not in self.members:
                self.note_absent(path, element)
        if not listed:
            raise Refusal("the index lists no FILE", file, root.line, root.tag)
        return listed

    def note_absent(self, path, element):
        """A document that is listed has to be there; of another file it is said that it is not."""
        if is_document(path, element.get("MIME-TYPE", "")):
            raise Refusal(f"{shown(path)} is not in the package", self.label(INDEX), element.line, element.tag)
        self.lines.append(f"missing {shown(path)}: listed by {INDEX}")

    def find(self, document, path):
        """The path of a data file that a document names, beside it or at the top, or None where there is none."""
        beside = cleaned(os.path.dirname(document) + "/" + path)
        return next((found for found in (beside, path) if found in self.members), None)

    def pieces(self, path):
        """The bytes of a member, unpacked; a member whose sum or size is not as said is refused at its end."""
        member = self.members[path]
        file = self.label(path)
        if member.flag_bits & 1:
            raise Refusal("encrypted", file)
        if member.compress_type not in (zipfile.ZIP_STORED, zipfile.ZIP_DEFLATED):
            raise Refusal(f"packed by method {member.compress_type}, and only deflate is read", file)
        with unpacking(file), self.archive.open(member) as stream:
            yield from pieces_of(stream, file)

    def close(self):
        self.archive.close()
        self.stream.close()


def source_of(file):
    """A package, known by its ending or its first bytes, or else a document."""
    if not os.path.isfile(file):
        raise Refusal("no plain file" if os.path.lexists(file) else "there is no such file", file)
    with reading(file), open(file, "rb") as stream:
        begins_as_zip = stream.read(2) == b"PK"
    if file.lower().endswith(".pdx") or begins_as_zip:
        return Package(file)
    return SingleDocument(file)


# From the one to the other.


class DataFile:
    """A data file under its name in the new folder, whether it is there, and the IDs of the FLASHDATA that name it."""

    def __init__(self, name, is_there):
        self.name = name
        self.is_there = is_there
        self.ids = []


class Conversion:
    """What the new folder gets, and the lines to print. Nothing is written here."""

    def __init__(self, source):
        self.source = source
        self.names = Names()
        self.total = 0
        self.data = {}
        self.catalogues = []
        self.orders = []
        self.notes = list(source.lines)
        self.fill_in = []

    def read(self):
        """Reads all documents and the data files that they name."""
        stems = [(path, self.names.document(path)) for path in self.source.documents]
        for path, stem in stems:
            root = DocumentReader(self.source.label(path)).read(self.counted(path))
            if next(ecu_mems(root), None) is None:
                self.notes.append(f"skipped {shown(path)}: it has no ECU-MEM")
            else:
                self.document(path, stem, root)
        if not self.catalogues:
            raise Refusal("there is no ODX-F document with an ECU-MEM", self.source.file)

    def counted(self, path):
        """The bytes of a file, refused once all files that were read have more than a package may have."""
        for piece in self.source.pieces(path):
            self.total += len(piece)
            if self.total > PACKAGE_LIMIT:
                raise Refusal(f"all files together have more than {PACKAGE_LIMIT} bytes", self.source.label(path))
            yield piece

    def document(self, path, stem, root):
        """Keeps the catalogue and the first order of a document."""
        for flash in root.iter("FLASHDATA"):
            for element in kids_of(flash, "DATAFILE"):
                self.data_file(path, flash, element)
        self.notes += lines_of_unread(root, shown(path))
        catalogue = catalogue_of(root, self.source.label(path))
        self.catalogues.append((f"{stem}.json", f"catalogue of {shown(path)}", catalogue))
        self.order(stem, sessions_of(root))

    def data_file(self, document, flash, element):
        """Finds and reads a data file that a FLASHDATA names, and names it as it will be named in the folder."""
        said = text_of(element)
        path = cleaned(said)
        place = (self.source.label(document), element.line, element.tag)
        if leaves(said):
            raise Refusal(f"a path that leaves the folder is refused: {shown(said)}", *place)
        if not path:
            self.notes.append(f"look at {shown(document)}, line {element.line}: a DATAFILE that names no file")
            return
        try:
            data = self.taken(self.source.find(document, path), path)
        except Refusal as refusal:
            raise Refusal(str(refusal), *place) from None
        data.ids.append(flash.get("ID") or "-")
        say(element, data.name)

    def taken(self, found, said):
        """The data file at a path, or that is not there, read and named where it is the first time that it is named."""
        path = found or said
        if path not in self.data:
            if found:
                collections.deque(self.counted(found), maxlen=0)
            self.data[path] = DataFile(self.names.data(said), found is not None)
        return self.data[path]

    def order(self, stem, sessions):
        """Keeps the first order for some sessions."""
        name = f"{stem}-order.json"
        chosen = [session for session in sessions if takes_task(session)]
        tasks = list(tasks_of(chosen[:TASK_LIMIT]))
        order = {"tester": TESTER, "catalogue": f"{stem}.json", "tasks": [task for task, _ in tasks]}
        text = json.dumps(order, ensure_ascii=False, indent=2) + "\n"
        self.orders.append((name, f"order, tasks: {len(tasks)}", text.encode("utf-8")))
        self.notes += lines_of_sessions(name, sessions, chosen)
        self.fill_in += lines_to_fill_in(name, tasks)

    def files(self):
        """Each file of the folder, with the pieces of its bytes. Orders come last, behind all that they stand on."""
        for path, data in self.data.items():
            if data.is_there:
                yield data.name, self.source.pieces(path)
        for name, _, text in self.catalogues + self.orders:
            yield name, [text]

    def lines(self):
        """What is printed once all is written."""
        for data in self.data.values():
            if data.is_there:
                yield f"wrote {data.name}: data of {listing(data.ids)}"
        for name, what, _ in self.catalogues + self.orders:
            yield f"wrote {name}: {what}"
        for path, data in self.data.items():
            if path != data.name:
                yield f"renamed {shown(path)} to {data.name}"
            if not data.is_there:
                yield f"missing {data.name}: data of {listing(data.ids)}, {self.source.place}"
        yield from self.notes
        yield from self.fill_in


def refuse_folder(folder):
    """Refuses a folder that is neither new nor empty."""
    if os.path.lexists(folder) and not os.path.isdir(folder):
        raise Refusal("it is no folder", folder)
    with reading(folder):
        if os.path.isdir(folder) and os.listdir(folder):
            raise Refusal("the folder is not empty", folder)


def take_away(files, folder):
    """Removes files, and the folder where one is given."""
    for file in files:
        with contextlib.suppress(OSError):
            os.unlink(file)
    if folder is not None:
        with contextlib.suppress(OSError):
            os.rmdir(folder)


def write_folder(folder, files):
    """Writes files into a new or empty folder. Where that fails nothing of it stays."""
    written = []
    made = None
    try:
        if not os.path.isdir(folder):
            os.mkdir(folder)
            made = folder
        for name, pieces in files:
            path = os.path.join(folder, name)
            with open(path, "xb") as file:
                written.append(path)
                for piece in pieces:
                    file.write(piece)
    except BaseException:
        take_away(written, made)
        raise


def convert(file, folder):
    """Reads all of a file, then writes the folder. The lines that say what was done."""
    refuse_folder(folder)
    with contextlib.closing(source_of(file)) as source:
        conversion = Conversion(source)
        conversion.read()
        refuse_folder(folder)
        try:
            write_folder(folder, conversion.files())
        except OSError as error:
            raise Refusal(f"it could not be written: {error.strerror or error}", folder) from None
        return list(conversion.lines())


class Words(argparse.ArgumentParser):
    """The two words, with status 1 where they are not in the form."""

    def error(self, message):
        self.print_usage(sys.stderr)
        self.exit(1, f"{self.prog}: {message}\n")


def main():
    words = Words(prog="odx_tree.py", description="Turns an ODX-F document or a PDX package into a folder for `check`.")
    words.add_argument("file", metavar="FILE", help="an ODX-F document (.odx-f, .odx) or a PDX package (.pdx)")
    words.add_argument("folder", metavar="FOLDER", help="a folder that is new or empty")
    said = words.parse_args()
    for stream in (sys.stdout, sys.stderr):
        stream.reconfigure(errors="backslashreplace")
    try:
        lines = convert(said.file, said.folder)
    except Refusal as refusal:
        print(f"{words.prog}: {refusal}", file=sys.stderr)
        return 2
    print(*lines, sep="\n")
    return 0


if __name__ == "__main__":
    sys.exit(main())
