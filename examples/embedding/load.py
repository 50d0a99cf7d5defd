"""The load of load.c, in Python: load.py [KEYS-EACH [PAGES [FILE]]]."""

import sys
import threading

from blink import Map


def key_of(number):
    return number * 0x9E3779B97F4A7C15 % 2**64


def main(each="5000", pages="65536", file=None):
    each, wrong = int(each), []
    with Map(pages=int(pages), seats=4) as rows:

        def work(numbers):
            wrong.extend(n for n in numbers if rows.insert(key_of(n), n) is not None)
            wrong.extend(n for n in numbers if rows.get(key_of(n)) != n)
            wrong.extend(n for n in numbers if n % 3 == 0 and rows.pop(key_of(n)) != n)

        threads = [threading.Thread(target=work, args=(range(t * each, (t + 1) * each),)) for t in range(4)]
        for thread in threads:
            thread.start()
        for thread in threads:
            thread.join()
        wanted = sorted((key_of(n), n) for n in range(4 * each) if n % 3)
        is_wrong = list(rows.items()) != wanted or wrong
        print(f"rows {len(rows)}, wanted {len(wanted)}, wrong {len(wrong)}")
        if file:
            rows.save(file)
    return 1 if is_wrong else 0


if __name__ == "__main__":
    sys.exit(main(*sys.argv[1:]))
