"""A server that keeps a log: what it leaves where it is killed, where a call is refused, and behind each call where the machine crashes.

Sections of random lines meet on few keys, and a plain map answers them beside the server: as the lines of a key are answered in their order, it
knows each reply, whatever the workers. The replies that were printed tell how many sections the log must have: all of which a byte was
printed, and one more at most, behind a section that was printed whole.
"""

import os
import random
import subprocess
import threading
import time

import crashes

WORD = 1 << 64


def fails(words):
    raise SystemExit(f"checks/log: {words}")


class Map:
    """A plain map, which answers lines."""

    def __init__(self, rows=()):
        self.rows = dict(rows)

    def answer(self, line):
        word, *numbers = line.split()
        numbers = [int(number) for number in numbers]
        if word == "sync":
            return "synced"
        key, there = numbers[0], self.rows.get(numbers[0])
        if word == "find":
            return "absent" if there is None else f"found {there}"
        if word == "insert" and there is not None:
            return f"present {there}"
        if word in ("insert", "put"):
            self.rows[key] = numbers[1]
            return "inserted" if there is None else f"replaced {there}"
        if there is None:
            return "absent"
        if word == "delete":
            del self.rows[key]
            return f"deleted {there}"
        if word == "add":
            self.rows[key] = (there + numbers[1]) % WORD
            return f"replaced {there}"
        if there != numbers[1]:
            return f"differs {there}"
        self.rows[key] = numbers[2]
        return "changed"

    def text(self):
        return "".join(f"{key} {value}\n" for key, value in sorted(self.rows.items()))


def random_line(draw, keys, rows):
    key, value = draw.randrange(keys), draw.randrange(50)
    word = draw.choice(("find", "insert", "put", "put", "delete", "delete", "change", "add"))
    if word in ("find", "delete"):
        return f"{word} {key}"
    if word == "change":
        return f"change {key} {rows.get(key, 7)} {value}"
    return f"{word} {key} {value}"


class Plan:
    """Sections from a map on: their lines, what is printed of each, and the rows of the map behind so many."""

    def __init__(self, draw, rows, count, longest, keys):
        lines, model = [], Map(rows)
        self.texts, self.rows = [], [model.text()]
        for _ in range(count):
            section = [random_line(draw, keys, model.rows) for _ in range(draw.randint(0, longest))] + ["sync"]
            first = len(lines) + 1
            self.texts.append("".join(f"{first + place} {model.answer(line)}\n" for place, line in enumerate(section)))
            lines += section
            self.rows.append(model.text())
        self.given = "".join(f"{line}\n" for line in lines)
        self.output = "".join(self.texts)

    def allowed(self, printed):
        """How many sections the log may have where that was printed."""
        if not self.output.startswith(printed):
            fails(f"a server printed {printed[:200]!r} .., and not {self.output[:200]!r} ..")
        begun = whole = size = 0
        for text in self.texts:
            begun += size < len(printed)
            size += len(text)
            whole += size <= len(printed)
        return range(begun, begun + 1 + (begun == whole and whole < len(self.texts)))

    def sections(self, printed, found):
        """How many sections the log has, of which these are the rows."""
        for count in self.allowed(printed):
            if self.rows[count] == found:
                return count
        return None


def rows_of(blink, folder):
    output, status, reason = blink.run("rows", folder=folder)
    if status:
        fails(f"the log of a server cannot be read: {reason}")
    return output


def command_of(blink, folder, draw):
    return [blink.program, "serve", "--log", folder, "--workers", str(draw.choice((1, 4))), "--compressors", str(draw.randrange(2))]


def check_kills(blink, folder, seconds, seed=11):
    """Servers that are killed at random moments, one behind another over one log."""
    draw, end = random.Random(seed), time.monotonic() + seconds
    rows, killed, ended = {}, 0, 0
    while time.monotonic() < end or killed < 3:
        plan = Plan(draw, rows, draw.randint(1, 200), draw.choice((0, 3, 40, 800, 3000)), draw.choice((5, 60, 600)))
        server = subprocess.Popen(command_of(blink, folder, draw), stdin=subprocess.PIPE, stdout=subprocess.PIPE, stderr=subprocess.DEVNULL)
        feeder = subprocess.Popen(["cat"], stdin=subprocess.PIPE, stdout=server.stdin, stderr=subprocess.DEVNULL)
        server.stdin.close()
        killer = threading.Timer(draw.random() ** 2 * (0.02 + len(plan.given) / 1_000_000), server.kill)
        killer.start()
        sender = threading.Thread(target=feeder.communicate, args=(plan.given.encode(),))
        sender.start()
        printed = server.stdout.read().decode()
        sender.join()
        server.stdout.close()
        status = server.wait()
        killer.cancel()
        found = rows_of(blink, folder)
        count = plan.sections(printed, found)
        if count is None:
            fails(f"seed {seed}: a server that was killed left a log of other rows than it had told")
        killed += status == -9
        ended += status == 0
        if status not in (0, -9) or status == 0 and printed != plan.output:
            fails(f"a server ended with status {status}")
        rows = {int(key): int(value) for key, value in (line.split() for line in found.splitlines())}
    return killed, ended


def check_torn(blink, folder, head, last, before, after):
    """A server goes on with a log whose last record is torn."""
    for cut in (len(last) // 2, len(last) - 8, len(last)):
        blink.put(head + last[:cut].ljust(len(last), b"\0") + bytes(4096))
        rows = dict(after if cut == len(last) else before)
        ran = subprocess.run([blink.program, "serve", "--log", folder], input="put 77 1\n", capture_output=True, text=True, check=False)
        rows[77] = 1
        if ran.returncode or ran.stdout != "1 inserted\n" or rows_of(blink, folder) != Map(rows).text():
            fails(f"a server over a torn record: {ran}")


def check_refused(blink, fresh):
    """Each call that a server makes on its folder is refused in turn, and each crash behind one is tried."""
    draw = random.Random(5)
    plan = Plan(draw, {}, 6, 30, 9)
    words = [blink.program, "serve", "--workers", "1", "--compressors", "0", "--log"]
    folder = fresh()
    calls = crashes.calls_of([*words, folder], plan.given, folder, prints=True)
    of_folder = [call for call in calls if call.name != "print"]
    for call in of_folder:
        refused = fresh()
        ran = crashes.refused([*words, refused], plan.given, call)
        what = f"{call.name} {call.number} of {os.path.basename(call.files[0])} of a server is refused"
        if ran.returncode != 3 or "blink: log failed\n" not in ran.stderr:
            fails(f"{what}: {ran.returncode} {ran.stderr}")
        if os.path.exists(os.path.join(refused, "log")):
            if plan.sections(ran.stdout, rows_of(blink, refused)) is None:
                fails(f"{what}: the log has other rows than were told")
        elif ran.stdout:
            fails(f"{what}: there is no log of what was told")
    tried, wrong = wrong_crashes(blink, fresh, folder, calls, plan)
    if wrong:
        fails(f"{wrong} of {tried} crashes of the machine left other rows than a server had told")
    syncs = [call for call in of_folder if call.name == "fdatasync"]
    if not wrong_crashes(blink, fresh, folder, crashes.without(calls, syncs[len(syncs) // 2]), plan)[1]:
        fails("without the sync of a section no crash is found to do harm")
    return len(of_folder), tried


def wrong_crashes(blink, fresh, folder, calls, plan):
    """How many crashes were tried, and how many of them left other rows than may be."""
    disk, draw, printed, tried, wrong = crashes.Disk(folder), random.Random(7), "", 0, 0
    for call in calls:
        disk.carry_out(call)
        if call.name == "print":
            printed += call.data.decode()
        for _ in range(6):
            left = fresh()
            disk.leaves(draw, left)
            tried += 1
            said = blink.run("rows", folder=left)
            is_none = said[2] == "log: is not there" and not printed
            wrong += not (is_none or said[1] == 0 and plan.sections(printed, said[0]) is not None)
    return tried, wrong


def check_full(blink, folder):
    """A server whose log outgrows its disk ends, and has told nothing that is not there."""
    plan = Plan(random.Random(3), {}, 100, 6000, 100_000)
    ran = subprocess.run([blink.program, "serve", "--large", "100000", "--log", folder], input=plan.given, capture_output=True, text=True, check=False)
    if ran.returncode != 3 or "No space left on device" not in ran.stderr:
        fails(f"a server on a full disk: {ran.returncode} {ran.stderr}")
    if plan.sections(ran.stdout, rows_of(blink, folder)) is None:
        fails("a server on a full disk left other rows than it had told")


def check_two(blink, folder):
    """A second server over one folder is refused, and so are an image for a log that is there, and too few pages."""
    first = subprocess.Popen([blink.program, "serve", "--log", folder], stdin=subprocess.PIPE, stdout=subprocess.PIPE, stderr=subprocess.DEVNULL, text=True)
    first.stdin.write("put 1 1\nsync\n")
    first.stdin.flush()
    first.stdout.readline()
    wants(blink, folder, [], "FOLDER: another process has this log")
    first.communicate()
    wants(blink, folder, ["--image", "none"], "FOLDER/log: is there already, and --image begins a new one")
    lines = "".join(f"put {key} {key}\n" for key in range(100))
    subprocess.run([blink.program, "serve", "--log", folder], input=lines, capture_output=True, text=True, check=True)
    wants(blink, folder, ["--pages", "4"], "FOLDER/log: has 100 rows, for which 4 pages are too few")
    wants(blink, os.path.join(folder, "none"), [], "FOLDER: No such file or directory (os error 2)")


def wants(blink, folder, words, why):
    ran = subprocess.run([blink.program, "serve", "--log", folder, *words], input="find 1\n", capture_output=True, text=True, check=False)
    if (ran.returncode, ran.stdout, ran.stderr) != (3, "", f"blink: log failed\nblink: {why.replace('FOLDER', folder)}\n"):
        fails(f"{ran}, and not {why}")
