#!/usr/bin/env python3
"""Records random sessions and replays them, and compares what the program prints with what the second executor gives.

python3 tools/replays.py PROGRAM [--seed N] [--count N] [--mix NAME] [--out FOLDER] [FILE ...]

PROGRAM is the built `mullerpink_replay`. The sessions are those of tools/executor/random_sessions.py, without a hook
and a deadline behaviour, whose answers are on no tape; files that are named are taken in their place. For each session
the record must print the tape and the lines that the executor gives, and the replay of that tape the same lines and
`replay Same`. Then the tape is changed, so that a step is another question's or an entry is one more or is missing, and
the replay must end otherwise than with `Same`; and so that an answer is another one. The replay of a changed tape must
print what the executor's own replay gives. It prints each difference with its seed and the file where it put the input,
and at the end how many sessions it compared and how many differ; it ends with 1 where something differs.
"""

import argparse
import collections
import json
import os
import random
import subprocess
import sys
import tempfile

HERE = os.path.dirname(os.path.abspath(__file__))
sys.path.insert(0, os.path.join(HERE, "executor"))

from main import deeply  # noqa: E402
from random_sessions import MIXES, SessionMaker  # noqa: E402
from session import DONE, OUT_OF_MEMORY, Ending  # noqa: E402
from taping import KINDS, record_session, replay_session  # noqa: E402
from tapes import spelled  # noqa: E402

PATIENCE = 60
RECORDED = sorted(name for name, mix in MIXES.items() if mix and "spoil" not in mix)
STEP = {"answer": {"fail": True}, "body": 0, "event": "start", "next": 0, "state": 0}
MORE = {"steps": STEP, "readings": 0, "growths": "yes"}


class UnhookedMaker(SessionMaker):
    """Makes sessions without a hook and a deadline behaviour."""

    def parts(self):
        script = super().parts()
        for key in ("hook", "deadline"):
            script.get("data", {}).pop(key, None)
        return script


def unhooked_session(seed, mix_name=None):
    """The text of a random session, and the name of its mix."""
    name = mix_name or RECORDED[seed % len(RECORDED)]
    mix = {**MIXES[name], "limiter": 0.6, "epochs": max(MIXES[name]["epochs"], 0.3)}
    return json.dumps(UnhookedMaker(random.Random(seed), mix).session()), name


def run_program(program, word, text):
    try:
        done = subprocess.run([program, word], input=text.encode(), capture_output=True, timeout=PATIENCE, check=False)
    except subprocess.TimeoutExpired:
        return Ending(None, "", "no end in %d seconds" % PATIENCE)
    return Ending(done.returncode, done.stdout.decode(), done.stderr.decode().strip())


# ------------------------------------------------------------------------------------------------------ changed tapes


def with_entry(tape, kind, place, entry):
    return {**tape, kind: [*tape[kind][:place], entry, *tape[kind][place + 1 :]]}


def with_other_question(rng, tape):
    """A step of another body, state or event."""
    place = rng.randrange(len(tape["steps"]))
    step = tape["steps"][place]
    key = rng.choice(["body", "state", "event"])
    other = {"start": "replied", "replied": "start"}[step["event"]] if key == "event" else step[key] + 1
    return with_entry(tape, "steps", place, {**step, key: other})


def with_one_more(rng, tape):
    kind = rng.choice(KINDS)
    return {**tape, kind: [*tape[kind], MORE[kind]]}


def with_one_less(rng, tape):
    kind = rng.choice([kind for kind in KINDS if tape[kind]])
    return {**tape, kind: tape[kind][:-1]}


def unlike(rng, tape):
    """A tape by which a replay can't end as the record."""
    changes = [with_one_more]
    if any(tape[kind] for kind in KINDS):
        changes += [with_one_less] * 2
    if tape["steps"]:
        changes += [with_other_question] * 2
    return rng.choice(changes)(rng, tape)


def other_answer(rng, kind, entry):
    if kind == "steps":
        return rng.choice([{**entry, "answer": {"fail": True}}, {**entry, "answer": {"return": []}},
                           {**entry, "answer": {"return": [{"i32": 7}]}}, {**entry, "next": entry["next"] + 1}])
    if kind == "readings":
        return rng.choice(["fault", entry + 1, 0, 2**64 - 1])
    return rng.choice([other for other in ("yes", "no", "fault") if other != entry])


def otherwise_answered(rng, tape):
    """A tape on which an answer is another one, or None where there is none. A replay may still end as the record."""
    kinds = [kind for kind in KINDS if tape[kind]]
    if not kinds:
        return None
    kind = rng.choice(kinds)
    place = rng.randrange(len(tape[kind]))
    return with_entry(tape, kind, place, other_answer(rng, kind, tape[kind][place]))


# -------------------------------------------------------------------------------------------------------- one session


class Replays:
    def __init__(self, program, folder):
        self.program = program
        self.folder = folder
        self.counts = collections.Counter()

    def compare(self, name, word, text, wanted):
        """Compares what the program prints for an input with what is wanted."""
        printed = run_program(self.program, word, text)
        if printed != wanted:
            self.counts["differ"] += 1
            path = os.path.join(self.folder, "%s-%s.txt" % (name.replace(" ", "-"), word))
            with open(path, "w", encoding="utf-8") as file:
                file.write(text)
            print("%s: %s: %s, and the program %s" % (name, path, *first_difference(wanted, printed)))

    def session(self, name, text, seed):
        ours, tape = record_session(text.encode())
        if ours.status == OUT_OF_MEMORY:
            self.counts["left out"] += 1
            return
        self.counts["compared"] += 1
        if tape is None:
            self.counts["status " + ours.said.split(" ")[0]] += 1
            self.compare(name, "record", text, ours)
            return
        self.compare(name, "record", text, Ending(DONE, tape + "\n" + ours.text, ""))
        self.compare(name, "replay", tape + "\n" + text, Ending(DONE, ours.text + "replay Same\n", ""))
        entries, rng = json.loads(tape), random.Random(seed)
        self.counts.update({"on tapes: " + kind: len(entries[kind]) for kind in KINDS})
        self.replay_changed(name, text, unlike(rng, entries), False)
        answered = otherwise_answered(rng, entries)
        if answered:
            self.replay_changed(name, text, answered, True)

    def replay_changed(self, name, text, tape, may_be_same):
        wanted = replay_session(text.encode(), tape)
        end = wanted.text.split("\n")[-2] if wanted.text else "left out"
        self.counts[" ".join(end.split(" ")[: 2 if "Differs" in end else 3])] += 1
        if wanted.status == OUT_OF_MEMORY:
            return
        if wanted.status == DONE and not may_be_same:
            raise ValueError("%s: the executor takes a changed tape for the same: %s" % (name, spelled(tape)))
        self.compare(name + " changed", "replay", spelled(tape) + "\n" + text, wanted)

    def report(self):
        for word, count in sorted(self.counts.items()):
            if word not in ("compared", "differ"):
                print("%7d %s" % (count, word))
        print("%d compared, %d differ" % (self.counts["compared"], self.counts["differ"]))


def first_difference(ours, theirs):
    """What differs first, ours and the program's."""
    if (ours.status, ours.said) != (theirs.status, theirs.said):
        return (ours.status, ours.said), (theirs.status, theirs.said)
    pairs = zip(ours.text.split("\n"), theirs.text.split("\n"))
    return next((pair for pair in pairs if pair[0] != pair[1]), (len(ours.text), len(theirs.text)))


def main():
    parser = argparse.ArgumentParser()
    parser.add_argument("program")
    parser.add_argument("files", nargs="*")
    parser.add_argument("--seed", type=int, default=0)
    parser.add_argument("--count", type=int, default=1000)
    parser.add_argument("--mix", choices=RECORDED)
    parser.add_argument("--out", default=tempfile.gettempdir())
    words = parser.parse_intermixed_args()
    replays = Replays(os.path.abspath(words.program), words.out)
    for path in words.files:
        with open(path, encoding="utf-8") as file:
            replays.session(os.path.basename(path), file.read(), words.seed)
    for seed in range(words.seed, words.seed + (0 if words.files else words.count)):
        text, mix = unhooked_session(seed, words.mix)
        replays.session("seed %d %s" % (seed, mix), text, seed)
    replays.report()
    return replays.counts["differ"] != 0


if __name__ == "__main__":
    sys.exit(deeply(main))
