"""Random SQL against a blink table and an ordinary one: each answer, error and count of changes has to be the same, and each
order: random_sql.py EXTENSION [STATEMENTS [SEED [ROWS-AT-THE-START]]]."""

import random
import sqlite3
import sys
import time

EDGE = [-(2**63), -(2**63) + 1, -1, 0, 1, 2**63 - 1, 2**63 - 2, 2**53, 2**53 + 1]


def connect(extension, make):
    db = sqlite3.connect(":memory:", isolation_level=None)
    db.enable_load_extension(True)
    db.load_extension(extension)
    db.execute(make)
    db.execute("CREATE TABLE other(a INTEGER PRIMARY KEY, b)")
    db.executemany("INSERT INTO other VALUES(?, ?)", [(i, i * 7 % 50) for i in range(60)])
    return db


def run(db, sql):
    try:
        rows = db.execute(sql).fetchall()
        return ("rows", rows, db.execute("SELECT changes()").fetchone()[0])
    except sqlite3.Error as error:
        text = str(error).replace("cannot store", "datatype")
        for kind in ("UNIQUE", "NOT NULL", "datatype", "no such savepoint", "cannot commit", "cannot rollback", "within a transaction"):
            if kind in text:
                return ("error", kind)
        return ("error", text)


def run_plain(db, sql):
    """The same over the ordinary table. Where a value of a wrong type ends a statement OR FAIL or OR IGNORE, SQLite undoes all
    of it over a virtual table, and keeps the rows before over an ordinary one: so they are undone here."""
    if "OR FAIL" not in sql and "OR IGNORE" not in sql:
        return run(db, sql)
    db.execute("SAVEPOINT before_it")
    answer = run(db, sql)
    if answer == ("error", "datatype"):
        db.execute("ROLLBACK TO before_it")
    db.execute("RELEASE before_it")
    return answer


class Maker:
    def __init__(self, seed, rows):
        self.r = random.Random(seed)
        self.top, self.wide = max(300, 3 * rows), rows > 1000
        self.open = False
        self.marks = 0

    def key(self):
        r = self.r.random()
        if r < 0.05:
            return str(self.r.choice(EDGE)) if self.r.random() < 0.7 else "-9223372036854775808"
        return str(self.r.randint(-100, self.top))

    def near(self):
        """A condition that fits few rows."""
        low = self.r.randint(-100, self.top)
        return f"k BETWEEN {low} AND {low + self.r.randint(0, 200)}" if self.r.random() < 0.5 else f"k = {self.key()}"

    def bound(self):
        r = self.r.random()
        if r < 0.02:
            return "NULL"
        if r < 0.05:
            return self.r.choice(["2.5", "-7.5", "1e30", "-1e30", "'abc'", "'12'", "x'00'", "9223372036854775807.0", "5.0"])
        return self.key()

    def value(self):
        r = self.r.random()
        if r < 0.02:
            return self.r.choice(["NULL", "'7'", "4.0"])
        if r < 0.1:
            return str(self.r.choice(EDGE))
        return str(self.r.randint(0, 40))

    def where(self):
        r, b = self.r, self.bound
        choice = r.random()
        if choice < 0.3:
            return f"k = {b()}"
        if choice < 0.5:
            return f"k BETWEEN {b()} AND {b()}"
        if choice < 0.6:
            return f"k {r.choice(['<', '<=', '>', '>='])} {b()}"
        if choice < 0.7:
            return f"k > {b()} AND k <= {b()} AND v {r.choice(['<', '>', '='])} {self.value()}"
        if choice < 0.78:
            return f"k IN ({b()}, {b()}, {b()}, {b()})"
        if choice < 0.84:
            return f"rowid = {b()} OR k > {b()}"
        if choice < 0.9:
            return f"v = {self.value()}"
        if choice < 0.95:
            return f"k IN (SELECT b FROM other WHERE a < {r.randint(0, 30)})"
        return f"NOT (k BETWEEN {b()} AND {b()})"

    def statement(self):
        r = self.r
        choice = r.random()
        word = r.choice(["INSERT", "INSERT", "INSERT OR IGNORE", "INSERT OR REPLACE", "INSERT OR FAIL", "INSERT OR ABORT", "REPLACE"])
        if choice < 0.2:
            rows = ", ".join(f"({self.key()}, {self.value()})" for _ in range(r.randint(1, 6)))
            return f"{word} INTO t(k, v) VALUES {rows}"
        if choice < 0.23:
            return f"{word} INTO t(k, v) SELECT a * {r.randint(1, 4)} + {r.randint(-50, 50)}, b FROM other WHERE b {r.choice('<>')} {r.randint(0, 50)}"
        if choice < 0.25:
            return f"{word} INTO t(k, v) SELECT k + {r.randint(1, 30)}, v FROM t WHERE {self.near() if self.wide else self.where()}"
        if choice < 0.26:
            return f"INSERT INTO t(v) VALUES({r.randint(0, 9)})"
        if choice < 0.36:
            return f"UPDATE {r.choice(['', '', 'OR IGNORE ', 'OR REPLACE ', 'OR FAIL '])}t SET v = {r.choice(['v % 1000 + 1', self.value(), '-(v % 1000)', 'k'])} WHERE {self.where()}"
        if choice < 0.40:
            return f"UPDATE {r.choice(['', 'OR IGNORE '])}t SET k = k + {r.randint(-20, 20)} WHERE k BETWEEN {self.bound()} AND {self.bound()} AND abs(k) < 100000"
        if choice < 0.50:
            return f"DELETE FROM t WHERE {self.near() if self.wide else self.where()}"
        if choice < 0.501 and not self.wide:
            return "DELETE FROM t"
        if choice < 0.55:
            if not self.open:
                self.open, self.marks = True, 0
                return "BEGIN"
            word = r.choice(["COMMIT", "ROLLBACK", "SAVEPOINT", "SAVEPOINT", "RELEASE", "ROLLBACK TO", "ROLLBACK TO"])
            if word in ("COMMIT", "ROLLBACK"):
                self.open = False
                return word
            if word == "SAVEPOINT":
                self.marks += 1
                return f"SAVEPOINT s{self.marks}"
            if self.marks == 0:
                return "SELECT 1"
            which = r.randint(1, self.marks)
            if word == "RELEASE":
                self.marks = which - 1
                return f"RELEASE s{which}"
            self.marks = which
            return f"ROLLBACK TO s{which}"
        order = r.choice(["ORDER BY k", "ORDER BY k DESC", "ORDER BY k DESC, v", "ORDER BY v, k", "ORDER BY rowid", "ORDER BY rowid DESC"])
        limit = r.choice(["", "", "LIMIT 3", "LIMIT 5 OFFSET 2"])
        if choice < 0.85:
            return f"SELECT k, v, rowid, typeof(k) FROM t WHERE {self.where()} {order} {limit}"
        if choice < 0.90:
            return f"SELECT count(*), sum(k % 1000), min(k), max(k), sum(v % 1000) FROM t WHERE {self.where()}"
        if choice < 0.94:
            return f"SELECT t.k, o.b FROM other o JOIN t ON t.k = o.b WHERE o.a < {r.randint(0, 60)} ORDER BY t.k, o.a"
        if choice < 0.97:
            return f"SELECT v, count(*) FROM t GROUP BY v HAVING count(*) > 1 ORDER BY v"
        return f"SELECT a.k, b.k FROM t a JOIN t b ON b.k BETWEEN a.k + 1 AND a.k + {r.randint(1, 3)} WHERE a.k > {self.bound()} AND abs(a.k) < 100000 ORDER BY a.k, b.k"


def main(extension, count="20000", seed="1", rows="0"):
    ours = connect(extension, "CREATE VIRTUAL TABLE t USING blink(pages=16384)")
    plain = connect(extension, "CREATE TABLE t(k INTEGER PRIMARY KEY, v INTEGER NOT NULL)")
    maker, kinds, seen, begun = Maker(int(seed), int(rows)), {}, set(), time.time()
    begin = [(n * 3 - 100, n * n % 1000) for n in range(int(rows))]
    random.Random(int(seed)).shuffle(begin)
    for db in (ours, plain):
        db.execute("BEGIN")
        db.executemany("INSERT INTO t(k, v) VALUES(?, ?)", begin)
        db.execute("COMMIT")
    look = 1 if int(rows) < 1000 else 50
    for number in range(int(count)):
        sql = maker.statement()
        if sql.startswith("INSERT INTO t(v)") and plain.execute("SELECT 1 FROM t WHERE k = 9223372036854775807").fetchone():
            continue  # SQLite draws a key by chance there, and the extension refuses
        one, two = run(ours, sql), run_plain(plain, sql)
        kind = " ".join(sql.split()[:2]) if sql.startswith("INSERT OR") else sql.split()[0]
        kinds.setdefault(kind, [0, 0])[one[0] == "error"] += 1
        if one[0] == "error":
            seen.add(one[1])
        if one != two:
            print(f"statement {number} (seed {seed}): {sql}\n  blink {one}\n  plain {two}")
            return 1
        if not sql.startswith('SELECT') and number % look == 0:
            all_one, all_two = run(ours, "SELECT * FROM t"), run(plain, "SELECT * FROM t ORDER BY k")
            if all_one[1] != all_two[1]:
                print(f"the rows differ after statement {number} (seed {seed}): {sql}")
                return 1
        if ours.in_transaction != plain.in_transaction:
            print(f"transactions differ after {number}: {sql}")
            return 1
        maker.open = ours.in_transaction
    if errors := {e for e in seen if "blink" in e}:
        print("errors of the extension's own:", errors)
    rows = run(ours, "SELECT count(*) FROM t")[1][0][0]
    print(f"{count} statements, seed {seed}: all the same; {rows} rows at the end; {time.time() - begun:.1f} s; " +
          ", ".join(f"{k} {a}+{b} errors" for k, (a, b) in sorted(kinds.items())))
    return 0


if __name__ == "__main__":
    sys.exit(main(*sys.argv[1:]))
