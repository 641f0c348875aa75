#!/bin/sh
# Holds the JSON Schema of bench.json against tables of members, each right or wrong, the vehicles of the crates' data, and the
# example of docs/FORMATS.md where it has one. Skipped where Python's jsonschema is missing.
here=$(cd "$(dirname "$0")" && pwd)
for python in python3 /usr/bin/python3; do
    if "$python" -c 'import jsonschema' >/dev/null 2>&1; then
        exec "$python" "$here/bench_schema.py"
    fi
done
echo "skipped: no jsonschema"
