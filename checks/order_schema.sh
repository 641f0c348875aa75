#!/bin/sh
# Holds the JSON Schema of the order file against the examples of docs/FORMATS.md, the shipped orders and the tables of
# flash_order's tests: each order that is read is valid, each that is refused is not. Skipped where Python's jsonschema is missing.
here=$(cd "$(dirname "$0")" && pwd)
for python in python3 /usr/bin/python3; do
    if "$python" -c 'import jsonschema' >/dev/null 2>&1; then
        exec "$python" "$here/order_schema.py"
    fi
done
echo "skipped: no jsonschema"
