#!/usr/bin/env python3
"""Compares what is told of the places of faults with a second reading, on random texts.

usage: .ci/places.py [--seed S] [--count N] [--program PATH]

The texts are programs of examples/ and random ones, cut off at a token, or with a token put in,
left out or in another's place, and random programs with faults of names and types. What
`place_tests kinds` prints for the first token with which no program's tokens go on must be the
kinds that the parser of .ci/language.py asks for there, one after the other, before it gives up.
What `place_tests brief` says of that token, the place and the common mistake must be those of
.ci/mistakes.py.
Of a program, the place and the part of the text that `place_tests brief` prints must be those of
.ci/placing.py, and with them the types, the counts and the nearest name. It prints its seed, and
each text that is answered otherwise; the last line has the counts.
"""
import argparse
import concurrent.futures
import os
import random
import subprocess
import sys

sys.dont_write_bytecode = True
sys.path.insert(0, os.path.dirname(os.path.realpath(__file__)))
import generating
import language
import mistakes
import placing

TOP = os.path.dirname(os.path.dirname(os.path.realpath(__file__)))


# What is often written at first.
MISTAKEN = """! != || // -- in elif to states unoin True EMPTY {} {1,2} [0,0] -1 ; := int size
decide end at message(s) {v|true} if += round :""".split()


def changed(choose, text):
    """Returns a program that is cut off at a token, or that has one token more, less or another."""
    found = language.tokens(text)
    place = choose.randrange(len(found))
    at, after = found[place].first, found[place].after
    other = choose.choice(found).text.encode()
    if choose.random() < 0.1:
        other = choose.choice(generating.ODD).encode()
    elif choose.random() < 0.3:
        other = choose.choice(MISTAKEN).encode()
    ways = (
        text[:at],
        text[:at] + b" " + other + b" " + text[at:],
        text[:at] + b" " + text[after:],
        text[:at] + b" " + other + b" " + text[after:],
    )
    return choose.choice(ways)


def texts(seed, count):
    """Yields the texts."""
    examples = []
    for name in sorted(os.listdir(f"{TOP}/examples")):
        if name.endswith(".rounds"):
            with open(f"{TOP}/examples/{name}", "rb") as file:
                examples.append(file.read())
    for number in range(count):
        choose = random.Random(f"{seed}/{number}")
        maker = generating.Generator(choose)
        maker.slip = choose.choice([0, 0.01, 0.05])
        text = choose.choice(examples) if choose.random() < 0.2 else maker.program().encode()
        yield changed(choose, text) if choose.random() < 0.6 else text


def run(program, words, text):
    done = subprocess.run([program, *words], input=text, capture_output=True, check=False)
    return done.stdout.decode() if done.returncode == 0 else f"status {done.returncode}"


def place_of(text, at):
    """Returns the line and the column of an offset."""
    front = text[:at].decode().split("\n")
    return f"{len(front)}:{len(front[-1]) + 1}"


def token_complaint(program, text, at):
    """Returns what is answered otherwise of a token that doesn't fit, if anything is."""
    wanted = "".join(f"{it}\n" for it in placing.kinds_at(text[:at]))
    found = run(program, ["kinds", str(at)], text)
    if found != wanted:
        return f"wanted\n{wanted}found\n{found}"
    found = run(program, ["brief"], text)
    gap = mistakes.gap_before(text, at)
    wanted = f'{place_of(text, at)} "' if gap is None else f'{place_of(text, gap)} ""'
    hint = mistakes.Mistake(text, at).hint()
    told = f'" {mistakes.sentence(text[:at])}\n' + (f"{hint}\n" if hint else "")
    fits = found.startswith(wanted) and found.endswith(told)
    return None if fits else f"wanted {wanted}..{told}found {found}"


def program_complaint(program, text):
    """Returns what is answered otherwise of a program, if anything is."""
    fault = placing.Faults(text).first()
    found = run(program, ["brief"], text)
    if not fault:
        return None if found == "a program\n" else f"wanted a program, found {found}"
    first, after, words, declared = fault
    wanted = f'{place_of(text, first)} "{text[first:after].decode()}" '
    if declared:
        words += f"see {place_of(text, declared.first)}\n"
    fits = found.startswith(wanted) and words in found
    return None if fits else f"wanted {wanted}.. {words}\nfound {found}"


def compared(program, text):
    """Returns how a text is refused, and what is answered otherwise."""
    at = placing.fault_of(text)
    if at is not None:
        return "tokens", token_complaint(program, text, at)
    try:
        language.Parser(text).program()
    except language.Refused:
        return "limits", None
    return "programs", program_complaint(program, text)


def main():
    asked = argparse.ArgumentParser()
    asked.add_argument("--seed", type=int, default=random.randrange(10**6))
    asked.add_argument("--count", type=int, default=500)
    asked.add_argument("--program", default=f"{TOP}/crates/place_tests/out/place_tests")
    given = asked.parse_args()
    print(f"seed {given.seed}")
    counts, failed = {"tokens": 0, "programs": 0, "limits": 0}, 0
    with concurrent.futures.ThreadPoolExecutor() as pool:
        made = [*texts(given.seed, given.count)]
        answers = pool.map(lambda it: compared(given.program, it), made)
        for text, (kind, complaint) in zip(made, answers):
            counts[kind] += 1
            if complaint:
                failed += 1
                print(f"{text.decode()}\n{complaint}")
    print(f"tokens {counts['tokens']}, programs {counts['programs']}, {failed} answered otherwise")
    return 1 if failed else 0


if __name__ == "__main__":
    sys.exit(main())
