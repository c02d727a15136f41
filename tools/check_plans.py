#!/usr/bin/env python3
"""Runs a program on every *.plan of the given directories and holds what it prints
to the *.out beside it.

    tools/check_plans.py PROGRAM DIRECTORY...

The program, which may be given with arguments in one word ('PROGRAM ARGUMENT'),
reads one plan on standard input. Ends with status 1 on a difference.
"""
import pathlib
import shlex
import subprocess
import sys


def main():
    if len(sys.argv) < 3:
        sys.exit(__doc__)
    program = shlex.split(sys.argv[1])
    checked = different = 0
    for directory in map(pathlib.Path, sys.argv[2:]):
        plans = sorted(directory.glob("*.plan"))
        if not plans:
            sys.exit(f"{directory}: no plans")
        for plan in plans:
            expected = plan.with_suffix(".out").read_bytes()
            with plan.open("rb") as file:
                ran = subprocess.run(program, stdin=file, capture_output=True)
            checked += 1
            if ran.stdout != expected or ran.returncode != 0:
                different += 1
                print(f"{plan}: status {ran.returncode}")
                report(expected, ran.stdout)
    print(f"{checked} plans, {different} differences")
    sys.exit(1 if different else 0)


def report(expected, printed):
    """The first line that differs, side by side."""
    left = expected.decode("ascii", "replace").split("\n")
    right = printed.decode("ascii", "replace").split("\n")
    for number in range(max(len(left), len(right))):
        a = left[number] if number < len(left) else "(nothing)"
        b = right[number] if number < len(right) else "(nothing)"
        if a != b:
            print(f"  line {number + 1} expected: {a}\n  line {number + 1} printed:  {b}")
            return


if __name__ == "__main__":
    main()
