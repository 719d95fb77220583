"""Asks a program that speaks the line protocol."""

import re
import subprocess

from . import setup

LISTED = re.compile(r"array nulls=. oid=(\d+) dims=(\S+) values=(\S+)")
SIDES = re.compile(r"range lower=(\S+) upper=(\S+)")


def answers(program, lines, folder):
    """What a program answers, from a file to a file, so that neither end waits for the other."""
    with open(folder / "requests", "w") as file:
        file.writelines(line + "\n" for line in lines)
    with open(folder / "requests") as source, open(folder / "answers", "w") as target:
        status = subprocess.run([program], stdin=source, stdout=target).returncode
    given = (folder / "answers").read_text().splitlines()
    if status != 0 or len(given) != len(lines):
        begun = lines[min(len(given), len(lines) - 1)][:400] if lines else "the start"
        setup.fail(f"{program} ended with status {status} after {len(given)} answers, at: {begun}")
    return given


def refused(answer):
    """Whether a value was refused, at once or by a cursor."""
    return answer.startswith("refused") or "!" in answer


def writing(answer):
    """The request that writes the value of an answer."""
    kind, _, rest = answer.partition(" ")
    if kind == "array":
        return "array_to_sql " + " ".join(LISTED.fullmatch(answer).groups())
    if answer == "range empty":
        return "empty_range_to_sql"
    if kind == "range":
        return "range_to_sql " + " ".join(SIDES.fullmatch(answer).groups())
    return f"{kind}_to_sql " + rest.removeprefix("bits=").removeprefix("closed=")


def rewritten(program, kind, values, folder):
    """For each value what the program writes for what it reads from it, None where it refuses. A
    text is its bytes. None alone where the program lacks the request."""
    read = answers(program, [f"{kind}_from_sql x{value.hex()}" for value in values], folder)
    if "bad request" in read:
        return None
    taken = [i for i, answer in enumerate(read) if not refused(answer)]
    if kind == "text":
        return [None if refused(answer) else value for value, answer in zip(values, read)]
    wrote = answers(program, [writing(read[i]) for i in taken], folder)
    out = [None] * len(values)
    for i, answer in zip(taken, wrote):
        if not answer.startswith("wrote x"):
            setup.fail(f"{writing(read[i])[:400]} is answered {answer}")
        out[i] = bytes.fromhex(answer[len("wrote x") :])
    return out
