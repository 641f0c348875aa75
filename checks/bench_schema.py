"""Vehicles against docs/schema/bench.schema.json; see bench_schema.sh."""
import json
import pathlib
import re
import sys

import jsonschema

TOP = pathlib.Path(__file__).resolve().parent.parent
UNIT = '"address":"1001","regions":[{"at":"1000","size":64,"fill":"FF"}],"check":"0202"'
TROUBLE = '"sid":"36","nth":2'

# the members of a unit beside those of UNIT
UNITS = [
    (True, '"bytes":[{"at":"0000000000001000","hex":""},{"at":"1001","hex":"aBcD"}]'),
    (True, '"bytes":[{"at":"00FFffFFFFff","hex":"01"}]'),
    (False, '"bytes":[{"at":"10000000000","hex":"01"}]'),
    (False, '"bytes":[{"at":"00000000000001000","hex":"01"}]'),
    (False, '"bytes":[{"at":"","hex":"01"}]'),
    (False, '"bytes":[{"at":"1000","hex":"010"}]'),
    (False, '"bytes":[{"at":"1000"}]'),
    (False, '"bytes":[{"at":4096,"hex":"01"}]'),
    (True, '"idents":{"F195":"4F4C44","f190":""}'),
    (False, '"idents":{"F19":"4F"}'),
    (False, '"idents":{"F195":"4"}'),
    (True, '"idents":{"F195":"%s"}' % ("00" * 4096)),
    (False, '"idents":{"F195":"%s"}' % ("00" * 4097)),
    (True, '"key":{"rule":"none"}'),
    (True, '"key":{"rule":"xor","level":"01","mask":"5A"}'),
    (True, '"key":{"rule":"digest","level":"7D","length":32,"secret":"00"}'),
    (False, '"key":{"rule":"xor","level":"02","mask":"5A"}'),
    (False, '"key":{"rule":"xor","level":"7F","mask":"5A"}'),
    (False, '"key":{"rule":"digest","level":"01","length":33,"secret":"00"}'),
    (False, '"key":{"rule":"none","level":"01"}'),
    (False, '"key":null'),
    (True, '"seed":"1234"'),
    (False, '"seed":""'),
    (False, '"seed":"%s"' % ("00" * 65)),
    (True, '"block":0'),
    (True, '"block":4294967295'),
    (False, '"block":4294967296'),
    (False, '"block":1.0'),
    (False, '"block":-1'),
    (True, '"checked":[{"at":"1000","size":3}],"passed":true,"heard":18446744073709551615'),
    (False, '"checked":[{"at":"1000","size":0}]'),
    (False, '"passed":"true"'),
    (False, '"heard":18446744073709551616'),
    (True, '"kind":"03","unlocked":true,"last_seed":"","dtc":"off","messages":"on"'),
    (False, '"kind":"04"'),
    (False, '"kind":1'),
    (False, '"last_seed":null'),
    (False, '"dtc":true'),
    (False, '"messages":"Off"'),
    (True, '"transfer":{"at":"1000","rest":3,"counter":"01"}'),
    (True, '"transfer":{"at":"10000000000","rest":0,"counter":"01"}'),
    (False, '"transfer":{"at":"10000000001","rest":0,"counter":"01"}'),
    (True, '"transfer":{"at":"1003","rest":0,"counter":"02","taken":true,"up":true,"last":65533}'),
    (False, '"transfer":{"at":"1003","rest":0,"counter":"02","taken":true,"last":65534}'),
    (False, '"transfer":{"at":"1000","rest":3}'),
    (False, '"transfer":{"at":"1000","rest":3,"counter":1}'),
    (False, '"woken":0'),
]

# the members of a trouble of a unit beside those of TROUBLE
TROUBLES = [
    (True, '"do":"refuse","nrc":"73"'),
    (False, '"do":"refuse"'),
    (False, '"do":"refuse","nrc":"73","status":"01"'),
    (True, '"do":"odd","hex":"00"'),
    (False, '"do":"odd","hex":""'),
    (False, '"do":"odd","hex":"%s"' % ("00" * 4097)),
    (True, '"do":"fail","status":"01"'),
    (False, '"do":"fail","nrc":"01"'),
    (True, '"do":"mute"'),
    (False, '"do":"mute","ticks":1'),
    (True, '"do":"delay","ticks":0'),
    (True, '"do":"delay","ticks":1000000'),
    (False, '"do":"delay","ticks":1000001'),
    (True, '"do":"busy","times":1000'),
    (False, '"do":"busy","times":0'),
    (False, '"do":"busy","times":1001'),
    (True, '"do":"pending","ticks":1,"times":1'),
    (True, '"do":"pending","ticks":1000000,"until":{"unit":"1002","sid":"10"}'),
    (False, '"do":"pending","ticks":0,"times":1'),
    (False, '"do":"pending","ticks":1'),
    (False, '"do":"pending","ticks":1,"times":1,"until":{"unit":"1002","sid":"10"}'),
    (False, '"do":"pending","ticks":1,"until":{"unit":"1002"}'),
    (False, '"do":"pending","times":1'),
    (False, '"do":"deny","code":"01"'),
    (False, '"nrc":"73"'),
]

# troubles of the gateway
GATEWAY = [
    (True, '{"nth":1,"do":"deny","code":"01"}'),
    (True, '{"nth":4294967295,"do":"silent"}'),
    (True, '{"unit":"1001","nth":1,"do":"nack","code":"05"}'),
    (True, '{"tick":9223372036854775807,"do":"alive"}'),
    (False, '{"tick":9223372036854775808,"do":"alive"}'),
    (False, '{"nth":0,"do":"silent"}'),
    (False, '{"nth":4294967296,"do":"silent"}'),
    (False, '{"nth":1,"do":"deny"}'),
    (False, '{"nth":1,"do":"silent","code":"01"}'),
    (False, '{"nth":1,"do":"nack","code":"05"}'),
    (False, '{"nth":1,"do":"alive"}'),
    (False, '{"tick":1,"do":"mute"}'),
]

# whole files
VEHICLES = [
    (True, '{"entity":"4000","units":[]}'),
    (False, '{"units":[]}'),
    (False, '{"entity":"4000"}'),
    (False, '{"entity":"400","units":[]}'),
    (False, '{"entity":"4000","units":{}}'),
    (False, '{"entity":"4000","units":[],"gateways":[]}'),
    (False, '[]'),
    (False, '{"entity":"4000","units":[{"address":"1001","check":"0202"}]}'),
    (False, '{"entity":"4000","units":[{"address":"1001","regions":[]}]}'),
    (False, '{"entity":"4000","units":[{"regions":[],"check":"0202"}]}'),
    (True, '{"entity":"4000","units":[{"address":"1001","regions":[],"check":"0202"}]}'),
    (False, '{"entity":"4000","units":[{"address":"1001","regions":[{"at":"0","size":0,"fill":"FF"}],"check":"0202"}]}'),
    (False, '{"entity":"4000","units":[{"address":"1001","regions":[{"at":"0","size":1}],"check":"0202"}]}'),
    (False, '{"entity":"4000","units":[{"address":"1001","regions":[{"at":"0","size":1,"fill":"F"}],"check":"0202"}]}'),
    (True, '{"entity":"4000","units":[],"gateway":[%s]}' % ",".join(['{"nth":1,"do":"silent"}'] * 1000)),
    (False, '{"entity":"4000","units":[],"gateway":[%s]}' % ",".join(['{"nth":1,"do":"silent"}'] * 1001)),
    (False, '{"entity":"4000","units":[%s]}' % ",".join(
        '{"address":"%04X","regions":[],"check":"0202"}' % n for n in range(65))),
]


def parsed(text):
    """The value, with a number that has a point or an exponent as no number."""
    return json.loads(text, parse_float=lambda said: {"no whole number": said})


def examples():
    formats = (TOP / "docs/FORMATS.md").read_text()
    parts = formats.split("## The simulated vehicle (`bench.json`)")
    if len(parts) == 2:
        section = parts[1].split("\n## ")[0]
        for block in re.findall(r"(?:^    .*\n)+", section, re.M):
            yield "docs/FORMATS.md", True, block
    for path in sorted([*(TOP / "crates").glob("*/data/*.json"), *(TOP / "examples").glob("*.json")]):
        text = path.read_text()
        if '"entity"' in text and '"units"' in text:
            yield str(path.relative_to(TOP)), True, text


# rows that a rule refuses which no schema can say
BEYOND = {
    "same address", "region past limit", "region meet", "bytes outside", "idents case", "checked past limit",
    "transfer outside", "transfer before", "transfer before two", "a byte over",
}


def rows():
    """The rows of file_tests: what is read, and what is written for it."""
    folder = TOP / "crates/file_tests"
    if not (folder / "stdout").exists():
        return
    texts = dict(line.split(" | ", 1) for line in (folder / "data/rows.txt").read_text().splitlines() if " | " in line)
    for line in (folder / "stdout").read_text().splitlines():
        name, said = line.split(" | ", 1)
        if said.startswith("saved "):
            yield f"file_tests {name}, written", True, said[6:]
        if said != "not json":
            yield f"file_tests {name}", said.startswith("saved ") or name in BEYOND, texts[name]


def cases():
    yield from examples()
    yield from rows()
    yield "vehicle", True, '{"entity":"4000","units":[{%s}]}' % UNIT
    for ok, members in UNITS:
        yield "unit", ok, '{"entity":"4000","units":[{%s,%s}]}' % (UNIT, members)
    for ok, members in TROUBLES:
        yield "trouble", ok, '{"entity":"4000","units":[{%s,"troubles":[{%s,%s}]}]}' % (UNIT, TROUBLE, members)
    for ok, trouble in GATEWAY:
        yield "gateway", ok, '{"entity":"4000","units":[{%s}],"gateway":[%s]}' % (UNIT, trouble)
    for ok, text in VEHICLES:
        yield "vehicle", ok, text


def main():
    schema = json.loads((TOP / "docs/schema/bench.schema.json").read_text())
    jsonschema.Draft202012Validator.check_schema(schema)
    validator = jsonschema.Draft202012Validator(schema)
    counts = {True: 0, False: 0}
    wrong = 0
    for where, ok, text in cases():
        counts[ok] += 1
        if validator.is_valid(parsed(text)) != ok:
            wrong += 1
            print(f"{where}: {'refused' if ok else 'let through'}: {text.strip()[:300]}")
    print(f"bench schema: {counts[True]} vehicles valid, {counts[False]} refused, {wrong} wrong")
    sys.exit(1 if wrong or not counts[True] or not counts[False] else 0)


main()
