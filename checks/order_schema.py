"""Orders against docs/schema/order.schema.json; see order_schema.sh."""
import json
import pathlib
import re
import sys

import jsonschema

TOP = pathlib.Path(__file__).resolve().parent.parent
FIRST = '{"name":"A","unit":"1001","check":"0202","raw":"a.bin","at":"1000"}'


def parsed(text):
    """The value, with a number that has a point or an exponent as no number."""
    return json.loads(text, parse_float=lambda said: {"no whole number": said})


def examples():
    formats = (TOP / "docs/FORMATS.md").read_text()
    section = formats.split("## Order file")[1].split("\n## ")[0]
    for block in re.findall(r"(?:^    .*\n)+", section, re.M):
        yield "docs/FORMATS.md", True, block
    for path in sorted([*(TOP / "crates").glob("*/data/*.json"), TOP / "examples/vehicle.json"]):
        text = path.read_text()
        if '"tester"' in text and '"tasks"' in text:
            yield str(path.relative_to(TOP)), True, text


def rows(name):
    """The rows of a table of flash_order's tests: what is said, and the text behind it."""
    source = (TOP / "crates/flash_order/src/tests.rt").read_text()
    table = re.search(r"const %s: &str =\s*\"(.*?)\";" % name, source, re.S).group(1)
    table = table.replace("\\n\\\n", "\n").replace('\\"', '"').replace("\\t", "\t")
    for line in table.split("\n"):
        said, text = line.split("\t")
        if said != "not json":
            yield "flash_order's " + name, said == "ok", text


def cases():
    yield from examples()
    yield from rows("ORDERS")
    for where, ok, task in rows("TASKS"):
        yield where, ok, '{"tester":"0E80","tasks":[%s,%s]}' % (FIRST, task)


def main():
    schema = json.loads((TOP / "docs/schema/order.schema.json").read_text())
    jsonschema.Draft202012Validator.check_schema(schema)
    validator = jsonschema.Draft202012Validator(schema)
    counts = {True: 0, False: 0}
    wrong = 0
    for where, ok, text in cases():
        counts[ok] += 1
        if validator.is_valid(parsed(text)) != ok:
            wrong += 1
            print(f"{where}: {'refused' if ok else 'let through'}: {text.strip()}")
    print(f"order schema: {counts[True]} orders valid, {counts[False]} refused, {wrong} wrong")
    sys.exit(1 if wrong or not counts[True] or not counts[False] else 0)


main()
