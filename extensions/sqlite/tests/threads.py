"""Several connections, each of its own thread, over one map, and one that saves it all the while: threads.py EXTENSION [TIMES].

Each thread inserts a few rows that all share, puts rows of its own and takes some away, undoes changes, and lists its rows
both ways. At the end nothing is lost, and each image that was saved has the shared rows that were there before. Then eight connections
count up the same ten rows, by UPDATE and by blink_add, and the sums are exact; a ROLLBACK leaves what others have written since; and sums of a table that takes snapshots add up beside
connections that move amounts."""

import os
import random
import sqlite3
import sys
import tempfile
import threading

THREADS, SHARED = 4, 3
COUNTERS, COUNTED = 8, 10
MOVERS, MOVED = 3, 1000


def connect(extension, table="t USING blink(pages=8192, name=counted, seats=8)"):
    db = sqlite3.connect(":memory:", isolation_level=None, check_same_thread=False)
    db.enable_load_extension(True)
    db.load_extension(extension)
    db.execute(f"CREATE VIRTUAL TABLE {table}")
    return db


def work(extension, thread, times, failed):
    try:
        db, first = connect(extension), 1000 + thread * 10_000_000
        for n in range(times):
            db.execute("INSERT OR IGNORE INTO t VALUES(?, 0)", (n % SHARED,))
            db.execute("INSERT INTO t VALUES(?, ?)", (first + n, n))
            db.execute("INSERT OR REPLACE INTO t VALUES(?, ?)", (first + n, n + 1))
            if db.execute("SELECT v FROM t WHERE k = ?", (first + n,)).fetchall() != [(n + 1,)]:
                raise AssertionError("a row is lost")
            if n % 3 == 0:
                db.execute("DELETE FROM t WHERE k = ?", (first + n,))
            if n % 97 == 0:
                db.execute("BEGIN")
                db.execute("UPDATE t SET v = -1 WHERE k >= ? AND k < ?", (first, first + times))
                db.execute("ROLLBACK")
            if n % 50 == 0:
                wanted = [(first + i, i + 1) for i in range(n + 1) if i % 3]
                rows = db.execute("SELECT k, v FROM t WHERE k >= ? AND k < ? ORDER BY k", (first, first + times)).fetchall()
                falling = db.execute("SELECT k, v FROM t WHERE k >= ? AND k < ? ORDER BY k DESC", (first, first + times)).fetchall()
                if rows != wanted or falling != wanted[::-1]:
                    raise AssertionError(f"{len(rows)} and {len(falling)} rows, and wanted are {len(wanted)}")
        db.close()
    except BaseException as error:
        failed.append(error)


def save(extension, path, running, failed, saved):
    try:
        db, plain = connect(extension), sqlite3.connect(":memory:", isolation_level=None)
        plain.enable_load_extension(True)
        plain.load_extension(extension)
        while any(thread.is_alive() for thread in running):
            before = db.execute("SELECT count(*) FROM t WHERE k < 1000").fetchone()[0]
            db.execute("SELECT blink_save('t', ?)", (path,)).fetchone()
            plain.execute(f"CREATE VIRTUAL TABLE s USING blink(image='{path}')")
            if plain.execute("SELECT count(*) FROM s WHERE k < 1000").fetchone()[0] < before:
                raise AssertionError("an image lacks what was there before")
            plain.execute("DROP TABLE s")
            saved.append(path)
        db.close()
    except BaseException as error:
        failed.append(error)


def again(db, *words):
    """Makes a statement, once more where another connection has changed the row meanwhile; how often it was made."""
    for count in range(1, 1_000_000):
        try:
            db.execute(*words).fetchall()
            return count
        except sqlite3.OperationalError as error:
            if "another connection has changed the row" not in str(error):
                raise
    raise AssertionError("a statement was busy a million times")


def count_up(db, times, tries, failed):
    try:
        for n in range(times):
            tries.append(again(db, "UPDATE c SET v = v + 1 WHERE k = ?", (n % COUNTED,)))
            db.execute("SELECT blink_add('c', ?, 1)", (-1 - n % COUNTED,)).fetchone()
    except BaseException as error:
        failed.append(error)


def counted(extension, times):
    """Counts by several connections, and says how often a statement was made once more."""
    connections, failed, tries = [connect(extension, "c USING blink(pages=64, name=counters)") for _ in range(COUNTERS)], [], []
    connections[0].executemany("INSERT INTO c VALUES(?, 0)", [(k,) for k in range(COUNTED)])
    running = [threading.Thread(target=count_up, args=(db, times, tries, failed)) for db in connections]
    for thread in running:
        thread.start()
    for thread in running:
        thread.join()
    if failed:
        raise failed[0]
    sums = [connections[0].execute(f"SELECT sum(v) FROM c WHERE k {side} 0").fetchone()[0] for side in (">=", "<")]
    if sums != [COUNTERS * times, COUNTERS * times]:
        raise AssertionError(f"the sums are {sums}, and wanted is {COUNTERS * times} twice")
    one, other = connections[:2]
    one.execute("BEGIN")
    one.execute("UPDATE c SET v = 1 WHERE k IN (1, 2)")
    one.execute("INSERT INTO c VALUES(500, 1), (501, 1)")
    one.execute("DELETE FROM c WHERE k IN (3, 4)")
    other.execute("UPDATE c SET v = 777 WHERE k IN (1, 500)")
    other.execute("INSERT INTO c VALUES(3, 777)")
    one.execute("ROLLBACK")
    before = times * COUNTERS // COUNTED
    rows = other.execute("SELECT k, v FROM c WHERE k BETWEEN 1 AND 4 OR k >= 500").fetchall()
    if rows != [(1, 777), (2, before), (3, 777), (4, before), (500, 777)]:
        raise AssertionError(f"after a rollback there are {rows}")
    for db in connections:
        db.close()
    return sum(tries) - len(tries)


def move(db, number, is_over, failed):
    """Moves 1 from a key to another one and back, by two statements."""
    try:
        drawn = random.Random(number)
        while not is_over.is_set():
            db.execute("SELECT blink_add('m', ?, -1)", (drawn.randrange(MOVED),)).fetchone()
            db.execute("SELECT blink_add('m', ?, 1)", (drawn.randrange(MOVED),)).fetchone()
    except BaseException as error:
        failed.append(error)


def at_one_moment(extension, times):
    """Sums beside connections that move amounts, of a table that takes snapshots: how many, and how many were to be asked again."""
    made, is_over, failed, again = "m USING blink(pages=4096, name=moved, seats=8", threading.Event(), [], 0
    connections = [connect(extension, made + ")") for _ in range(MOVERS)]
    reader = connect(extension, made + ", snapshot=1)")
    reader.execute("WITH RECURSIVE n(i) AS (SELECT 0 UNION ALL SELECT i + 1 FROM n WHERE i < ?) INSERT INTO m SELECT i, 100 FROM n", (MOVED - 1,))
    running = [threading.Thread(target=move, args=(db, n, is_over, failed)) for n, db in enumerate(connections)]
    for thread in running:
        thread.start()
    for _ in range(times):
        try:
            count, total = reader.execute("SELECT count(*), sum(v) FROM m").fetchone()
        except sqlite3.OperationalError as error:
            if "try the statement again" not in str(error):
                raise
            again += 1
            continue
        if count != MOVED or not 100 * MOVED - MOVERS <= total <= 100 * MOVED:
            failed.append(AssertionError(f"{count} rows with {total} are of no one moment"))
            break
    is_over.set()
    for thread in running:
        thread.join()
    for db in [*connections, reader]:
        db.close()
    if failed:
        raise failed[0]
    return again


def main(extension, times="2000"):
    times, failed, saved = int(times), [], []
    extension, kept = os.path.abspath(extension), connect(os.path.abspath(extension))
    with tempfile.TemporaryDirectory() as folder:
        running = [threading.Thread(target=work, args=(extension, thread, times, failed)) for thread in range(THREADS)]
        saving = threading.Thread(target=save, args=(extension, os.path.join(folder, "image"), running, failed, saved))
        for thread in [*running, saving]:
            thread.start()
        for thread in [*running, saving]:
            thread.join()
    if failed:
        sys.exit(f"{failed[0]!r}")
    rows = kept.execute("SELECT count(*) FROM t").fetchone()[0]
    wanted = SHARED + THREADS * sum(1 for n in range(times) if n % 3)
    if rows != wanted:
        sys.exit(f"{rows} rows, and wanted are {wanted}")
    repeated = counted(extension, times)
    again = at_one_moment(extension, times)
    print(f"{THREADS} connections, {rows} rows as wanted, {len(saved)} images saved meanwhile; {COUNTERS} count exactly, {repeated} times once more; {times - again} sums of one moment")


if __name__ == "__main__":
    main(*sys.argv[1:])
