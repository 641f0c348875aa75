#!/usr/bin/env python3
"""Holds docs/DEFINITIONS.md against the definitions of the crates.

Each name in the first column of a row stands in the file that the row, or the heading above it, says; and of the crates of the
core each public definition is named somewhere in the document, but for the values of their worked rows. Prints what is not so,
and ends with status 1 where there is any. Names of the source (`src`), of constructors and of fields count as there too.
"""
import collections
import pathlib
import re
import sys

TOP = pathlib.Path(__file__).resolve().parent.parent
CORE = """disk_model unit_model shop_model run_model journal_model uds_codec doip_frame answer_law flash_plan unit_session
    link_state barrier_board bay_core bay_replay outcome_law link_law""".split()
SHORT = {"R": "run_model", "B": "bay_core", "U": "unit_model"}
PUBLIC = re.compile(r"^\s*(?:abbrev |unfoldable |definition )*pub (?:abbrev |unfoldable |definition |record |data )*([^\s:(]+)")
CONSTRUCTOR = re.compile(r"^\s\s+([A-Za-z_]+) :")
FILES = r"[A-Z][A-Za-z]+(?:, [A-Z][A-Za-z]+)*"


def specs():
    for path in sorted(TOP.glob("crates/*/specs/**/*.antt")):
        crate = path.relative_to(TOP / "crates").parts[0]
        yield crate, path.relative_to(TOP / "crates" / crate / "specs").with_suffix("").as_posix(), path.read_text()


def definitions():
    """The places CRATE/FILE of each name, and of the core the public names of each place."""
    places, public = collections.defaultdict(set), {}
    for crate, file, text in specs():
        own = public.setdefault((crate, file), [])
        for line in text.splitlines():
            if (said := PUBLIC.match(line)) and said[1] != "mod":
                places[said[1]].add(f"{crate}/{file}")
                if not line.startswith(" "):
                    own.append(said[1])
            if said := CONSTRUCTOR.match(line):
                places[said[1]].add(f"{crate}/{file}")
    for path in TOP.glob("crates/*/src/**/*.rt"):
        crate = path.relative_to(TOP / "crates").parts[0]
        for name in re.findall(r"\w+", path.read_text()):
            places[name].add(f"{crate}/src")
    return places, public


def said_places(cells, heading):
    """Where a row, or the heading above it, says that its names stand; empty where neither names a file."""
    row = " ".join(cells)
    found = {(crate, file) for crate, files in re.findall(rf"([a-z_]+)/specs/({FILES})", row) for file in files.split(", ")}
    found |= {(SHORT[short], file) for short, file in re.findall(r"\b([RBU])/([A-Za-z]+)", row)}
    crates = [crate for crate, _ in re.findall(r"`([a-z_]+)(?:/specs(?:/([A-Za-z]+))?)?`", heading)]
    bare = [file for cell in cells[1:] if re.fullmatch(rf"`?{FILES}`?|`[A-Za-z]+`(?:, `[A-Za-z]+`)*", cell)
            for file in cell.replace("`", "").split(", ")]
    found |= {(crate, file) for crate in crates for file in bare}
    found |= {(crate, file) for crate, file in re.findall(r"`([a-z_]+)/specs/([A-Za-z]+)`", heading)}
    found |= {(SHORT[short], file) for short, file in re.findall(r"\(([RBU])/([A-Za-z]+)\)", heading)}
    return {f"{crate}/{file}" for crate, file in found}


def misplaced(document, places):
    heading = header = ""
    for number, line in enumerate(document.splitlines(), 1):
        if line.startswith("#"):
            heading, header = line, ""
        elif not line.startswith("|"):
            header = ""
        elif line.startswith("| "):
            cells = [cell.strip() for cell in line.strip().strip("|").split(" | ")]
            header = header or line
            if line == header or heading == "## Words":
                continue
            names = cells[0] if cells[0].startswith("`") else cells[1] if len(cells) > 1 else ""
            said = said_places(cells, heading + header)
            for term in re.findall(r"`([^`]+)`", names):
                name = re.split(r"[ .]", term)[0]
                if re.fullmatch(r"\w+", name) and ">>=" not in term and said and not said & places[name] and "src/" not in names:
                    yield f"docs/DEFINITIONS.md:{number}: {name} is not in {', '.join(sorted(said))}"


def unnamed(document, public):
    words = {word for term in re.findall(r"`([^`]*)`", document) for word in re.findall(r"\w+", term)}
    for (crate, file), names in sorted(public.items()):
        for name in names:
            if crate in CORE and name not in words and (file != "Rows" or re.match("Are.*Worked", name)):
                yield f"crates/{crate}/specs/{file}.antt: {name} is not named in docs/DEFINITIONS.md"


def main():
    document = (TOP / "docs/DEFINITIONS.md").read_text()
    places, public = definitions()
    wrong = list(misplaced(document, places)) + list(unnamed(document, public))
    count = sum(len(names) for (crate, _), names in public.items() if crate in CORE)
    print("\n".join(wrong) or f"{count} definitions of the core: as said")
    sys.exit(1 if wrong else 0)


if __name__ == "__main__":
    main()
