"""What the system may refuse while a log is made, and what a crash of the machine may leave of it, behind each call.

strace tells which calls a command makes on its folder. Each is refused in turn. Of the calls themselves a model of a disk is made, as
Pillai and others have it ("All File Systems Are Not Created Equal", 2014): of what was written to a file since its last sync, each sector of
512 bytes may be there or not, and the file may have the length from before; of the names that were given since the last sync of the folder, the first few
may be there. Whatever such a crash leaves is written into a folder of its own, for the program to read.
"""

import os
import random
import re
import shutil
import subprocess

CALLS = ("openat", "read", "write", "lseek", "fsync", "fdatasync", "rename", "flock")
LINE = re.compile(r"(?:\d+ +)?(\w+)\((.*)\) += (-?\d+)")
BYTES = re.compile(r'"((?:\\x[0-9a-f]{2})*)"')
SECTOR = 512


def is_there():
    """Whether calls can be followed here."""
    return shutil.which("strace") is not None and subprocess.run(["strace", "-o", "/dev/null", "true"], capture_output=True, check=False).returncode == 0


class Call:
    """A call that concerns the folder: its name, which one of that name it is, the files that it is about, where, and what it writes."""

    def __init__(self, name, number, files, at=0, data=b"", creates=False):
        self.name, self.number, self.files, self.at, self.data, self.creates = name, number, files, at, data, creates


def calls_of(command, given, folder, prints=False):
    """The calls of a command that concern the folder, in their order; and those by which it prints, if they are wanted."""
    trace = os.path.join(os.path.dirname(folder), "trace")
    ran = ["strace", "-f", "-xx", "-s", "4000000", "-e", f"trace={','.join(CALLS)}", "-o", trace, *command]
    subprocess.run(ran, input=given, text=True, capture_output=True, check=True)
    with open(trace, encoding="ascii") as file:
        return list(concerning(folder, file, prints))


def concerning(folder, lines, prints):
    counts, files, places = {}, {}, {}
    for line in lines:
        told = LINE.match(line)
        if not told:
            continue
        name, words, answer = told[1], told[2], int(told[3])
        counts[name] = counts.get(name, 0) + 1
        texts = [bytes.fromhex(text.replace("\\x", "")) for text in BYTES.findall(words)]
        handle = words.split(",")[0]
        if name == "openat":
            about = [os.path.normpath(os.fsdecode(texts[0]))]
            files[str(answer)], places[str(answer)] = about[0], 0
        elif name == "rename":
            about = [os.path.normpath(os.fsdecode(text)) for text in texts]
            files.update((held, about[1]) for held, path in files.items() if path == about[0])
        else:
            about = [files.get(handle, "")]
        if prints and name == "write" and handle == "1":
            yield Call("print", counts[name], [""], data=texts[0][:answer])
        if not about[0].startswith(folder):
            continue
        yield Call(name, counts[name], about, places.get(handle, 0), texts[0] if name == "write" else b"", "O_CREAT" in words)
        if name == "write":
            places[handle] += answer
        elif name == "lseek":
            places[handle] = answer


def refused(command, given, call):
    """How the command ends where that call is refused."""
    fault = f"inject={call.name}:error=EIO:when={call.number}"
    ran = ["strace", "-f", "-o", "/dev/null", "-e", f"trace={call.name}", "-e", fault, *command]
    return subprocess.run(ran, input=given, text=True, capture_output=True, check=False)


class File:
    """A file: what it has, and what the disk has of it for sure."""

    def __init__(self):
        self.data, self.kept = bytearray(), b""

    def left(self, draw):
        """What a crash may leave: all that was written, what was kept, or some sectors of the one and some of the other."""
        way = draw.randrange(4)
        if way < 2:
            return bytes(self.data) if way else self.kept
        size = draw.randint(*sorted((len(self.kept), len(self.data))))
        old, new = self.kept[:size].ljust(size, b"\0"), bytes(self.data[:size]).ljust(size, b"\0")
        return b"".join((old if draw.random() < 0.5 else new)[at : at + SECTOR] for at in range(0, size, SECTOR))


class Disk:
    """The files of a folder, their names, the names that are kept for sure, and those that came since."""

    def __init__(self, folder):
        self.folder, self.names, self.kept, self.since = folder, {}, {}, []

    def carry_out(self, call):
        if call.name == "openat" and call.creates:
            if call.files[0] not in self.names:
                self.names[call.files[0]] = File()
                self.since.append(dict(self.names))
            self.names[call.files[0]].data = bytearray()
        elif call.name == "write":
            data = self.names[call.files[0]].data
            data[call.at : call.at + len(call.data)] = call.data
        elif call.name == "rename":
            self.names[call.files[1]] = self.names.pop(call.files[0])
            self.since.append(dict(self.names))
        elif call.name in ("fsync", "fdatasync") and call.files[0] == self.folder:
            self.kept, self.since = dict(self.names), []
        elif call.name in ("fsync", "fdatasync") and call.files[0] in self.names:
            file = self.names[call.files[0]]
            file.kept = bytes(file.data)

    def leaves(self, draw, folder):
        """Writes what a crash now may leave into a folder, which is empty."""
        for path, file in draw.choice([self.kept, *self.since]).items():
            with open(os.path.join(folder, os.path.basename(path)), "wb") as left:
                left.write(file.left(draw))


def crashes(calls, folder, fresh, seed, each=6):
    """Folders as crashes may leave them, so many behind each call, each with whether the command had ended by then."""
    disk, draw = Disk(folder), random.Random(seed)
    for place, call in enumerate(calls):
        disk.carry_out(call)
        if call.name not in ("openat", "write", "fsync", "fdatasync", "rename"):
            continue
        for _ in range(each):
            left = fresh()
            disk.leaves(draw, left)
            yield left, place + 1 == len(calls)


def without(calls, sync):
    """The calls, but for that sync."""
    return [call for call in calls if call is not sync]
