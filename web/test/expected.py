#!/usr/bin/env python3
"""Writes what tools/ read from files, as one JSON value, for web/test.mjs to compare.

    web/test/expected.py FILE..      the names of scripts end with .kms or .in, and those of reports with .report or .out
"""
import dataclasses
import hashlib
import json
import pathlib
import sys

sys.path.insert(0, str(pathlib.Path(__file__).resolve().parents[2] / "tools"))
import reports  # noqa: E402
import timeline  # noqa: E402


def of_script(text):
    script = reports.read_script(text)
    commands = {f"{client}.{number}": [it.line, it.words] for (client, number), it in script.commands.items()}
    planes = [dataclasses.asdict(plane) for plane in script.planes]
    return {"profile": script.profile, "crtcs": script.crtcs, "planes": planes, "connectors": script.connectors, "commands": commands}


def of_latch(latch):
    frame = latch.frame and [latch.frame.width, latch.frame.height, hashlib.sha256(b"".join(latch.frame.rows)).hexdigest()]
    return [latch.crtc, latch.commit, latch.count, latch.digest, frame]


def of_report(text):
    report = reports.read_report(text.splitlines())
    replies = {f"{client}.{number}": [it.place, it.words, it.refusal, it.commit] for (client, number), it in report.replies.items()}
    events = [[it.client, str(it.user_data), it.count, it.crtc] for it in report.events]
    return {
        "journal": report.journal, "replies": replies, "latches": [of_latch(it) for it in report.latches], "events": events,
        "end": report.end, "steps": report.steps, "picture": timeline.draw(report) if report.steps else None,
    }  # fmt: skip


def main():
    answers = []
    for file in map(pathlib.Path, sys.argv[1:]):
        read = of_script if file.suffix in (".kms", ".in") else of_report
        answers.append(read(file.read_text()))
    json.dump(answers, sys.stdout)


if __name__ == "__main__":
    main()
