#!/usr/bin/env python3
"""Joins two feeds into one, unless one has errors: publish.py A B OUT"""
import sys

import dezhampul


def errors_of(folder):
    """A line for each error of a feed. Warnings do not keep it from being used."""
    problems = dezhampul.check(folder).problems
    return [f"{folder}: {problem}" for problem in problems if problem.code.startswith("E")]


def join(first, second, out):
    merged = dezhampul.merge(first, second, out, near=100)
    for renamed in merged.renamed:
        print(f"{renamed.kind} {renamed.old} of {renamed.side} is now {renamed.new}")
    print(f"{merged.joined['stop']} stops are in both feeds, and {merged.near} lies near another")


if __name__ == "__main__":
    errors = [line for folder in sys.argv[1:3] for line in errors_of(folder)]
    if errors:
        sys.exit("\n".join(errors))
    join(*sys.argv[1:])
