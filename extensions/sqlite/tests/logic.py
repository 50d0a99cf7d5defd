"""Runs cases in the form of sqllogictest over the extension, in a folder of its own: logic.py EXTENSION FILE."""

import os
import sqlite3
import sys
import tempfile


def records(path):
    """The blocks of a file, each with the number of its first line."""
    with open(path, encoding="utf-8") as file:
        lines = file.read().split("\n")
    block, first = [], 0
    for number, line in enumerate([*lines, ""], 1):
        if line.startswith("#"):
            continue
        if line:
            first = first if block else number
            block.append(line)
        elif block:
            yield first, block
            block = []


def statement(db, head, sql):
    """What is wrong with a statement, or None."""
    wanted = head.removeprefix("statement error").strip() if head.startswith("statement error") else None
    try:
        db.execute(sql).fetchall()
    except sqlite3.Error as error:
        if wanted is None or wanted not in str(error):
            return f"error: {error}"
        return None
    return None if wanted is None else "no error"


def query(db, sql, wanted):
    try:
        got = [str(value) for row in db.execute(sql) for value in row]
    except sqlite3.Error as error:
        return f"error: {error}"
    return None if got == wanted else f"{got}, and wanted is {wanted}"


def main(extension, path):
    extension, path, count = os.path.abspath(extension), os.path.abspath(path), 0
    with tempfile.TemporaryDirectory() as folder:
        os.chdir(folder)
        db = sqlite3.connect(":memory:", isolation_level=None)
        db.enable_load_extension(True)
        db.load_extension(extension)
        for number, (head, *lines) in records(path):
            count += 1
            if head.startswith("statement"):
                wrong = statement(db, head, "\n".join(lines))
            else:
                at = lines.index("----")
                wrong = query(db, "\n".join(lines[:at]), lines[at + 1 :])
            if wrong:
                sys.exit(f"{path}:{number}: {wrong}")
        db.close()
        os.chdir("/")
    print(f"{count} cases as written by hand")


if __name__ == "__main__":
    main(*sys.argv[1:])
