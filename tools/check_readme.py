#!/usr/bin/env python3
"""Compares the table "Commands" of README.md with what ./interlock says of its commands (tools/commands.py).

    tools/check_readme.py    prints each row that only one of them has; the status is 1 where there is one
"""
import pathlib
import re
import sys

sys.dont_write_bytecode = True
TOP = pathlib.Path(__file__).resolve().parents[1]
import commands


def readme_rows():
    """The rows of the first table below the head "Commands"."""
    section = (TOP / "README.md").read_text().split("\n## Commands\n", 1)[1].split("\n## ", 1)[0]
    rows = re.search(r"(?:^\|.*\n)+", section, re.M).group(0).splitlines()
    return rows[2:]


def main():
    said, read = commands.table(), readme_rows()
    for row in said:
        if row not in read:
            print(f"./interlock alone says:  {row}")
    for row in read:
        if row not in said:
            print(f"README.md alone has:     {row}")
    if sorted(said) == sorted(read) and said != read:
        print("README.md has the rows in another order")
    return 0 if said == read else 1


if __name__ == "__main__":
    sys.exit(main())
