"""Where edits stand, and what they are: those of the gate are files crates/NAME/must-fail/EDIT.edit, as `rt` wants them, all others parts of
checks/edits/NAME.edits.

Such a part begins with a line 'edit: EDIT'. Its other lines are those of a file of the gate, letter for letter. A blank line stands between two
parts, which are in the order of their names.
"""

import glob
import os

TOP = os.path.dirname(os.path.dirname(os.path.dirname(os.path.realpath(__file__))))


def beside():
    """The edits beside the gate, as (crate, name, text), and what is wrong with how their files are laid out."""
    edits, wrong = [], []
    for path in sorted(glob.glob(f"{TOP}/checks/edits/*.edits")):
        crate, names = os.path.basename(path)[: -len(".edits")], []
        with open(path, encoding="utf-8") as file:
            # A blank line is none where it ends a text that is empty, as in 'new: '.
            parts = file.read().rstrip("\n").split("\n\n")
        for part in parts:
            head, _, text = part.partition("\n")
            if not head.startswith("edit: ") or not head[6:].replace("_", "").isalnum():
                wrong.append(f"checks/edits/{crate}.edits: a part does not begin with a name: {head[:60]}")
                continue
            names.append(head[6:])
            edits.append((crate, head[6:], text + "\n"))
        if names != sorted(set(names)):
            wrong.append(f"checks/edits/{crate}.edits: its names are not in their order, or one stands there twice")
    return edits, wrong


def of_the_gate():
    """The edits of the gate, as (crate, name, text)."""
    edits = []
    for path in sorted(glob.glob(f"{TOP}/crates/*/must-fail/*.edit")):
        with open(path, encoding="utf-8") as file:
            edits.append((path.split("/")[-3], os.path.basename(path)[: -len(".edit")], file.read()))
    return edits
