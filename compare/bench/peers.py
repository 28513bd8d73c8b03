#!/usr/bin/env python3
"""Measures how long xmlschema takes to compile the schemas of a folder.

    python3 compare/bench/peers.py FOLDER MODEL...

compare/run bench starts it. Files and lines are as in Peers.java. Exit status
3: xmlschema is not installed.
"""

import os
import sys
import time

try:
    import xmlschema
except ImportError:
    sys.exit(3)

MEASURING = 2.0  # seconds for each model


def compiled(text):
    """'accepted', or 'rejected' where the schema has an error."""
    try:
        xmlschema.XMLSchema10(text)
    except xmlschema.XMLSchemaParseError:
        return "rejected"
    return "accepted"


def timed(text):
    start = time.perf_counter_ns()
    compiled(text)
    return time.perf_counter_ns() - start


def main(folder, models):
    for model in models:
        texts = []
        for part in ("restricting", "apart"):
            with open(os.path.join(folder, f"{model}.{part}.xsd"), encoding="utf-8") as file:
                texts.append(file.read())
        answer = compiled(texts[0])
        if compiled(texts[1]) != "accepted":
            sys.exit(f"{model} is no schema")
        times = []
        end = time.perf_counter() + MEASURING
        while time.perf_counter() < end or len(times) < 3:
            times.append([timed(text) for text in texts])
        least = [min(column) for column in zip(*times)]
        print(model, *least, answer, sep="\t")


main(sys.argv[1], sys.argv[2:])
