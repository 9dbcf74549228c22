#!/usr/bin/env python3
"""Writes what the page tells in the manual's words, as JSON: the rules of refusals, and the properties' values at the start.

    web/words.py > words.json
"""
import dataclasses
import json
import pathlib
import sys

sys.path.insert(0, str(pathlib.Path(__file__).resolve().parent.parent / "tools"))
import reports  # noqa: E402


def words():
    start = {f"{row[0]}.{row[1]}": row[4] for row in reports.table("properties")}
    return {"rules": {number: dataclasses.asdict(rule) for number, rule in reports.read_rules().items()}, "start": start}


if __name__ == "__main__":
    json.dump(words(), sys.stdout, indent=1)
