#!/bin/sh
# Asks tshark and scapy about the requests, answers and frames of the table crates/codec_tests/data/asked. What is missing of the two is skipped.
here=$(cd "$(dirname "$0")" && pwd)
for python in python3 /usr/bin/python3; do
    if "$python" -c 'import scapy.contrib.automotive.doip' >/dev/null 2>&1; then
        exec "$python" "$here/codecs.py"
    fi
done
command -v python3 >/dev/null 2>&1 && exec python3 "$here/codecs.py"
echo "skipped: no python3"
