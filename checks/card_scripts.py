#!/usr/bin/env python3
"""Runs a built program on random scripts for cards (tools/card_script), and judges what tools/explain says of the answers.

usage: checks/card_scripts.py PROGRAM [SEEDS]      SEEDS: how many scripts for each card (5)

Each script must be accepted, and its history drained. Of each refused request the rule that the program named must refuse it by
tools/rules.py too, and of each other request none. What share of the requests was refused, and by which rules, is printed.
"""
import collections
import pathlib
import runpy
import subprocess
import sys

TOP = pathlib.Path(__file__).resolve().parent.parent
CARDS = [TOP / "checks" / "on_kernel" / "stand_in.card", *sorted((TOP / "checks" / "cards").glob("*.card"))]
sys.dont_write_bytecode = True
sys.path.insert(0, str(TOP / "tools"))
import reports  # noqa: E402
import rules  # noqa: E402
import states  # noqa: E402

MAKER = runpy.run_path(str(TOP / "tools" / "card_script"))
TRIED_LATER = (25, 26)  # what is not to be seen from the states


def judged(script, report):
    """Whether the rules refuse each request of a report for which a rule is named, and no other."""
    for command, device in states.replay(script, report):
        refusal = report.replies[command.client, command.number].refusal
        asked = range(1, 25) if not refusal or refusal in TRIED_LATER else [refusal]
        found = [number for number in asked if command.words[0] == "atomic" and rules.why(number, command, device)]
        if command.words[0] == "atomic" and found != [number for number in asked if number == refusal]:
            yield f"line {command.line}: the program says {refusal or 'yes'}, tools/rules.py {found}: {' '.join(command.words)}"


def run(program, name, text):
    """The report of a script, and what is wrong with it."""
    done = subprocess.run([program, "one"], input=text.encode(), capture_output=True)
    report = reports.read_report(done.stdout.decode().splitlines())
    if done.returncode or report.end != "drained":
        return report, [f"{name}: status {done.returncode}, {report.end} {done.stderr.decode().strip()}"]
    return report, [f"{name}, {it}" for it in judged(reports.read_script(text), report)]


def kind_of(command, reply):
    """What came of a command, for the sums."""
    return "other" if command.words[0] != "atomic" else "refused" if reply.is_refused else reply.words[0]


def tried(program, path, seeds):
    """Runs scripts for a card: what came of requests, how often each rule refused a command, and what is wrong."""
    card, kinds, refused, wrong = MAKER["read_card"](path.read_text()), collections.Counter(), collections.Counter(), []
    for seed in range(seeds):
        text = MAKER["script"](card, str(seed), 60, set(), False)
        report, said = run(program, f"{path.stem}, seed {seed}", text)
        commands = reports.read_script(text).commands
        kinds.update(kind_of(commands[key], reply) for key, reply in report.replies.items())
        refused.update(reply.refusal for reply in report.replies.values() if reply.is_refused)
        wrong += said
    return kinds, refused, wrong


def main():
    if len(sys.argv) not in (2, 3):
        sys.exit(__doc__)
    program, seeds = sys.argv[1], int((sys.argv + ["5"])[2])
    failed = False
    for path in CARDS:
        kinds, refused, wrong = tried(program, path, seeds)
        print(*wrong, sep="\n", end="\n" * bool(wrong))
        del kinds["other"]
        shares = ", ".join(f"{count} {kind} ({100 * count // max(1, kinds.total())} %)" for kind, count in sorted(kinds.items()))
        print(f"{path.stem}: {seeds} scripts; requests: {shares}")
        print(f"  commands refused by {len(refused)} of {len(reports.read_rules())} rules:", *(f"{it}: {refused[it]}," for it in sorted(refused)))
        failed = failed or bool(wrong)
    sys.exit(failed)


if __name__ == "__main__":
    main()
