"""The class Map, over the module in C."""

from __future__ import annotations

import itertools
import os
import threading
import warnings
import weakref
from array import array
from collections.abc import Callable, ItemsView, Iterable, Iterator, KeysView, Mapping, MutableMapping, ValuesView
from operator import index
from typing import Any, NoReturn, TypeVar, overload

from ._shim import ffi, lib

_Default = TypeVar("_Default")
_MOST = 2**64 - 1
_OK, _ABSENT, _PRESENT, _NO_ROOM = lib.BLINK_OK, lib.BLINK_ABSENT, lib.BLINK_PRESENT, lib.BLINK_NO_ROOM
_UNSURE = lib.SHIM_UNSURE
_find = lib.shim_find
_new = ffi.new
_NOTHING: Any = object()
# The pages with which a map begins that nobody has sized, and rows a page where the rows are known; and the most pages.
_PAGES, _ROWS_A_PAGE, _MOST_PAGES = 4096, 4, 2**28


class Error(Exception):
    """What each exception of this package is, besides what it is in Python."""


class NoRoom(Error, MemoryError):
    """No page was free. The call that says so has changed nothing, but for the pairs that it tells to be put."""


class Closed(Error, ValueError):
    """The map is closed. Where `image` is not None, it has the map's rows, for Map.from_image."""

    image: bytes | None = None


class BadImage(Error, ValueError):
    """The bytes are no sound image of a map."""


class Unsteady(Error, RuntimeError):
    """Others changed the rows of a snapshot each time that they were read."""


def library_version() -> str:
    """The version of the C library, as "0.1.0"."""
    return str(ffi.string(lib.blink_version()).decode())


def _refuse(code: int, more: str = "") -> NoReturn:
    """Raises what a code means that is no answer."""
    text = ffi.string(lib.blink_text(code)).decode() + more
    if code == _NO_ROOM:
        raise NoRoom(text)
    if code == lib.BLINK_NO_MEMORY:
        raise MemoryError(text)
    if code == lib.BLINK_CLOSED:
        raise Closed("the map is closed")
    if code == lib.BLINK_UNSTEADY:
        raise Unsteady(text)
    raise (BadImage if code == lib.BLINK_BAD_IMAGE else ValueError)(text)


def _word(value: Any, what: str) -> int:
    """The value as a key or a value of a map: TypeError where it is no integer, OverflowError where it is out of range."""
    try:
        whole = index(value)
    except TypeError:
        raise TypeError(f"a {what} is an integer, not {type(value).__name__}") from None
    if not 0 <= whole <= _MOST:
        raise OverflowError(f"the {what} {whole} is not 0 to 2**64 - 1")
    return whole


def _delta(value: Any) -> int:
    """What is added to a value, modulo 2**64."""
    try:
        return index(value) & _MOST
    except TypeError:
        raise TypeError(f"what is added is an integer, not {type(value).__name__}") from None


def _key_or_none(key: Any) -> int | None:
    """The key, or None for what no map has: as with a dict, that is no error unless it has no hash."""
    try:
        return _word(key, "key")
    except (TypeError, OverflowError):
        hash(key)
        return None


def _words(values: Iterable[Any], what: str) -> array[int]:
    try:
        return array("Q", values)
    except (TypeError, OverflowError):
        return array("Q", [_word(value, what) for value in values])


def _given(numbers: Any, what: str) -> Any:
    """The numbers as a buffer of unsigned ones: a copy of what is a list, a tuple or a buffer of signed ones."""
    if isinstance(numbers, (list, tuple)):
        return _words(numbers, what)
    view = memoryview(numbers)
    return _words(view.tolist(), what) if view.ndim == 1 and view.format in ("q", "l") else view


def _numbers(buffer: Any, what: str, count: int | None = None, *, is_written: bool = False) -> Any:
    """A buffer of unsigned 64-bit numbers for C, of so many."""
    view = memoryview(buffer)
    if view.format not in ("Q", "L") or view.itemsize != 8 or view.ndim != 1 or not view.c_contiguous:
        raise TypeError(f"{what} is no array of unsigned 64-bit numbers side by side, as array('Q') or numpy.uint64")
    if count is not None and len(view) != count:
        raise ValueError(f"{what} has {len(view)} places, and there are {count} keys")
    numbers = ffi.from_buffer("uint64_t[]", view, require_writable=is_written)
    if len(view) and int(ffi.cast("uintptr_t", numbers)) % 8:
        raise TypeError(f"{what} does not begin at a multiple of 8 bytes")
    return numbers


def _flags(buffer: Any, count: int) -> Any:
    """A buffer of bytes for C that is written, of so many."""
    view = memoryview(buffer)
    if view.itemsize != 1 or view.ndim != 1 or not view.c_contiguous:
        raise TypeError("found is no array of bytes side by side, as bytearray or numpy.bool_")
    if len(view) != count:
        raise ValueError(f"found has {len(view)} places, and there are {count} keys")
    return ffi.from_buffer("uint8_t[]", view, require_writable=True)


def _bounds(minimum: int | None, maximum: int | None, inclusive: tuple[bool, bool]) -> tuple[int, int]:
    """The least and the greatest key of a range, whose bounds may be any integers; it has none where the first is greater."""
    low = 0 if minimum is None else max(0, index(minimum) + (not inclusive[0]))
    high = _MOST if maximum is None else min(_MOST, index(maximum) - (not inclusive[1]))
    return low, high


class Map(MutableMapping[int, int]):
    """An ordered map; keys and values are 0 to 2**64 - 1.

    Threads may share a map: each call of one key is one step of one plain map. An iteration is many calls: it is right
    whatever others change meanwhile, and no snapshot. len() is exact while no other thread writes.

    The map grows as rows come, by two each time, while other calls wait. With `pages`, 4 to 2**28, it has just so many, in which
    6 * pages - 10 rows surely fit, and NoRoom is raised behind that.
    `seats` is how many calls may be underway at once, 1 to 64; others wait for their turn. With `path` the map begins with the
    image in that file, and save() and close() write it there; with `create` the file need not be there.

    In the child of a fork a map is closed, if the program had threads: the library cannot be used there.
    """

    __slots__ = ("__weakref__", "_at", "_path", "_saving")

    def __init__(
        self,
        rows: Mapping[int, int] | Iterable[tuple[int, int]] = (),
        *,
        pages: int | None = None,
        path: str | os.PathLike[str] | None = None,
        seats: int = 8,
        create: bool = False,
    ) -> None:
        image = None
        if path is not None and (os.path.exists(path) or not create):
            with open(path, "rb") as file:
                image = file.read()
        if pages is None:
            wanted = len(rows) // _ROWS_A_PAGE if hasattr(rows, "__len__") else 0
            self._begin(max(_PAGES, wanted), seats, image, path, grows=True)
        elif image is None or int.from_bytes(image[12:16], "little") == pages:
            self._begin(pages, seats, image, path)
        else:
            with Map.from_image(image, seats=1) as old:
                self._begin(pages, seats, None, path)
                self.update(old)
        self.update(rows)

    def _begin(self, pages: int, seats: int, image: Any, path: Any, *, grows: bool = False) -> None:
        made = _new("shim_map **")
        if _is_orphan:
            raise Error("the library cannot be used in the child of a fork of a program with threads: spawn it")
        if not 0 < index(pages) < 2**32 or not 0 <= index(seats) < 2**32:
            raise ValueError(f"a map has 4 to 2**28 pages and 1 to 64 seats, not {pages} and {seats}")
        bytes_ = ffi.NULL if image is None else ffi.from_buffer("uint8_t[]", image)
        code = lib.shim_open(pages, _MOST_PAGES if grows else 0, seats, bytes_, 0 if image is None else len(bytes_), made)
        if code != _OK:
            _refuse(code, f": {os.fspath(path)}" if image is not None and path is not None else "")
        self._at = ffi.gc(made[0], _free)
        self._path = path
        self._saving = threading.Lock()
        _living[id(self)] = self

    @classmethod
    def open(cls, path: str | os.PathLike[str], *, seats: int = 8) -> Map:
        """The map of the image in a file, where save() and close() write it again."""
        return cls(path=path, seats=seats)

    @classmethod
    def from_image(cls, image: Any, *, seats: int = 8) -> Map:
        """A map that begins with the bytes of an image, as image() and `blink dump` make it."""
        made = cls.__new__(cls)
        made._begin(4, seats, image, None, grows=True)
        return made

    @classmethod
    def fromkeys(cls, keys: Iterable[int], value: int = 0, **options: Any) -> Map:
        """A map in which all keys have one value."""
        return cls(((key, value) for key in keys), **options)

    # One key.

    def __getitem__(self, key: int) -> int:
        if type(key) is int:
            try:
                value: int = _find(self._at, key)
            except OverflowError:
                raise KeyError(key) from None
            if value != _UNSURE:
                return value
        surely = self._look(key)
        if surely is None:
            raise KeyError(key)
        return surely

    def _look(self, key: Any) -> int | None:
        word = _key_or_none(key)
        if word is None:
            return None
        value = _new("uint64_t *")
        code = lib.shim_find_surely(self._at, word, value)
        if code == _OK:
            return int(value[0])
        return None if code == _ABSENT else _refuse(code)

    @overload
    def get(self, key: int, /) -> int | None: ...
    @overload
    def get(self, key: int, /, default: int | _Default) -> int | _Default: ...
    def get(self, key: Any, default: Any = None) -> Any:
        if type(key) is int:
            try:
                value = _find(self._at, key)
            except OverflowError:
                return default
            if value != _UNSURE:
                return value
        surely = self._look(key)
        return default if surely is None else surely

    def __contains__(self, key: object) -> bool:
        return self.get(key) is not None  # type: ignore[call-overload]

    def __setitem__(self, key: int, value: int) -> None:
        if type(key) is not int or type(value) is not int:
            key, value = _word(key, "key"), _word(value, "value")
        try:
            code = lib.shim_set(self._at, key, value)
        except OverflowError:
            code = lib.shim_set(self._at, _word(key, "key"), _word(value, "value"))
        if code != _OK:
            _refuse(code)

    def put(self, key: int, value: int) -> int | None:
        """Sets the value, whatever is there, in one step: the value that was there, or None."""
        old = _new("uint64_t *")
        code = lib.shim_put(self._at, _word(key, "key"), _word(value, "value"), old)
        if code == _PRESENT:
            return int(old[0])
        return None if code == _OK else _refuse(code)

    def insert(self, key: int, value: int) -> int | None:
        """Sets the value where the key has none: None, or the value that is there and stays."""
        there = _new("uint64_t *")
        code = lib.shim_insert(self._at, _word(key, "key"), _word(value, "value"), there)
        if code == _PRESENT:
            return int(there[0])
        return None if code == _OK else _refuse(code)

    def setdefault(self, key: int, default: int = 0) -> int:
        """The key's value, which is `default` from now on where it had none."""
        there = self.insert(key, default)
        return index(default) if there is None else there

    def change(self, key: int, old: int, new: int) -> bool:
        """Sets the value where it is the old one: whether it was. KeyError where the key is not there."""
        there = _new("uint64_t *")
        code = lib.shim_change(self._at, _word(key, "key"), _word(old, "value"), _word(new, "value"), there)
        if code == _ABSENT:
            raise KeyError(key)
        if code not in (_OK, _PRESENT):
            _refuse(code)
        return bool(code == _OK)

    def add(self, key: int, delta: int = 1) -> int:
        """Adds to the key's value, modulo 2**64, in one step: the sum. A key that is not there counts as 0, as in a Counter.

        `delta` may be any integer: add(key, -1) takes 1 away.
        """
        now = _new("uint64_t *")
        code = lib.shim_add(self._at, _word(key, "key"), _delta(delta), now)
        return int(now[0]) if code in (_OK, _PRESENT) else _refuse(code)

    def update_value(self, key: int, function: Callable[[int], int]) -> int:
        """Sets the value to what the function makes of it: the new value. KeyError where the key is not there.

        It is a lookup and then changes, and the function is called again where others write in between: so no seat is taken
        while it runs, and it may use the map.
        """
        old = self[key]
        while not self.change(key, old, new := _word(function(old), "value")):
            old = self[key]
        return new

    def _take(self, key: Any) -> int | None:
        word = _key_or_none(key)
        if word is None:
            return None
        gone = _new("uint64_t *")
        code = lib.shim_delete(self._at, word, gone)
        if code == _OK:
            return int(gone[0])
        return None if code == _ABSENT else _refuse(code)

    def __delitem__(self, key: int) -> None:
        if self._take(key) is None:
            raise KeyError(key)

    @overload
    def pop(self, key: int, /) -> int: ...
    @overload
    def pop(self, key: int, /, default: int | _Default) -> int | _Default: ...
    def pop(self, key: Any, default: Any = _NOTHING) -> Any:
        gone = self._take(key)
        if gone is not None:
            return gone
        if default is _NOTHING:
            raise KeyError(key)
        return default

    # Many keys.

    def get_many(self, keys: Any, default: int = 0, *, out: Any = None, found: Any = None) -> Any:
        """The values of many keys, by one call in C that fetches their pages side by side: an array('Q'), with `default` for keys
        that are not there.

        `keys` is array('Q'), numpy.uint64 or another buffer of unsigned 64-bit numbers; a list or signed numbers are copied into
        one first. With `out`, a buffer of unsigned numbers of as many places, the values are written there and it is the answer;
        what stands at the place of an absent key stays. `found`, a buffer of as many bytes, gets 1 where the key is there and
        else 0. Each key is one step of its own.
        """
        asked = _numbers(_given(keys, "key"), "keys")
        count = len(asked)
        if out is None:
            out = array("Q", [_word(default, "default")]) * count
        values = _numbers(out, "out", count, is_written=True)
        flags = ffi.NULL if found is None else _flags(found, count)
        code = lib.shim_get_many(self._at, asked, count, values, flags)
        if code != _OK:
            _refuse(code)
        return out

    def put_many(self, keys: Any, values: Any) -> None:
        """Sets the values of many keys in their order, by one call in C; both are given as in get_many. NoRoom says how
        many were set before."""
        self._put_part(_given(keys, "key"), _given(values, "value"), 0)

    def _put_part(self, keys: Any, values: Any, before: int) -> int:
        """Sets values, behind so many others: how many these are together."""
        asked = _numbers(keys, "keys")
        given = _numbers(values, "values", len(asked))
        done = _new("size_t *")
        code = lib.shim_put_many(self._at, asked, given, len(asked), done)
        if code != _OK:
            _refuse(code, f" in {self.pages} pages; {before + done[0]} pairs were put" if code == _NO_ROOM else "")
        return before + len(asked)

    def update(self, rows: Any = (), /, **names: Any) -> None:
        """Sets the values of the pairs, or of the rows of a mapping, some thousand at a time. Sorted pairs are fastest."""
        if names:
            raise TypeError("a key is an integer, not str")
        done = 0
        if isinstance(rows, Map):
            for keys, values in rows._parts(0, _MOST):
                done = self._put_part(array("Q", keys), array("Q", values), done)
            return
        if hasattr(rows, "keys"):
            rows = rows.items() if hasattr(rows, "items") else ((key, rows[key]) for key in rows.keys())
        pairs = iter(rows)
        while part := list(itertools.islice(pairs, 4096)):
            keys, values = zip(*part)
            done = self._put_part(_words(keys, "key"), _words(values, "value"), done)

    def clear(self) -> None:
        """Takes all rows away, one by one."""
        for key in self:
            self._take(key)

    # Rows in order.

    def _parts(self, low: int, high: int, is_falling: bool = False) -> Iterator[tuple[list[int], list[int]]]:
        """The keys and values of a range, both bounds among it, in lists of some length."""
        if low > high:
            return
        keys, values, part = array("Q", bytes(4096)), array("Q", bytes(4096)), _new("shim_range *")
        into = ffi.from_buffer("uint64_t[]", keys), ffi.from_buffer("uint64_t[]", values)
        part.next, part.last = (high, low) if is_falling else (low, high)
        part.more = True
        # Few at first, since many iterations are left early.
        most = 32
        while part.more:
            code = lib.shim_rows(self._at, is_falling, most, *into, part)
            if code != _OK:
                _refuse(code)
            if part.count:
                yield keys[: part.count].tolist(), values[: part.count].tolist()
            most = 512

    def _keys(self, low: int, high: int, is_falling: bool = False) -> Iterator[int]:
        return itertools.chain.from_iterable(keys for keys, _ in self._parts(low, high, is_falling))

    def _items(self, low: int, high: int, is_falling: bool = False) -> Iterator[tuple[int, int]]:
        return itertools.chain.from_iterable(zip(*part) for part in self._parts(low, high, is_falling))

    def __iter__(self) -> Iterator[int]:
        return self._keys(0, _MOST)

    def __reversed__(self) -> Iterator[int]:
        """Keys downwards."""
        return self._keys(0, _MOST, True)

    def irange(
        self,
        minimum: int | None = None,
        maximum: int | None = None,
        inclusive: tuple[bool, bool] = (True, True),
        reverse: bool = False,
    ) -> Iterator[int]:
        """The keys of a range, as sortedcontainers.SortedDict.irange; bounds may be any integers."""
        return self._keys(*_bounds(minimum, maximum, inclusive), reverse)

    def snapshot(
        self,
        minimum: int | None = None,
        maximum: int | None = None,
        inclusive: tuple[bool, bool] = (True, True),
        *,
        rounds: int = 64,
    ) -> list[tuple[int, int]]:
        """The rows of a range, with bounds as irange has them, all of them as the map had them at one moment. Where other
        threads change some meanwhile they are read again, so many times at most: Unsteady then. Meanwhile no room comes back of
        what others replace, so it is for some thousand rows."""
        low, high = _bounds(minimum, maximum, inclusive)
        if low > high:
            return []
        if not 0 <= rounds < 2**32:
            raise ValueError(f"rounds is 0 to 2^32 - 1, not {rounds}")
        count, room = _new("uint64_t *"), 256
        while True:
            words = array("Q", bytes(16 * room))
            code = lib.shim_snapshot(self._at, low, high, rounds, ffi.from_buffer("blink_row[]", words), room, count)
            if code == _OK:
                end = 2 * count[0]
                return list(zip(words[0:end:2].tolist(), words[1:end:2].tolist()))
            if code != lib.BLINK_FEW_ROWS:
                _refuse(code)
            # Some more, since others may insert.
            room = count[0] + count[0] // 8

    def keys(self) -> KeysView[int]:
        """All keys, rising; reversed() of it gives them falling, here and below."""
        return _Keys(self)

    def items(self) -> ItemsView[int, int]:
        return _Items(self)

    def values(self) -> ValuesView[int]:
        return _Values(self)

    def peekitem(self, index: int = -1) -> tuple[int, int]:
        """The row at a place of the order; -1 is the last one. The first and the last are one call;
        others are counted to from the nearer end, since the map has no ranks. IndexError where there are fewer rows."""
        if index in (0, -1):
            row = _new("blink_row *")
            code = lib.shim_end(self._at, index == -1, row)
            if code == _OK:
                return row.key, row.value
            if code != _ABSENT:
                _refuse(code)
        else:
            rows = self._items(0, _MOST, index < 0)
            for found in itertools.islice(rows, index if index >= 0 else -index - 1, None):
                return found
        raise IndexError(f"the map has no row {index}")

    def popitem(self, index: int = -1) -> tuple[int, int]:
        """Takes the row at a place of the order away, by default the last one. KeyError where there is none."""
        while True:
            try:
                key, _ = self.peekitem(index)
            except IndexError as error:
                raise KeyError(str(error)) from None
            gone = self._take(key)
            if gone is not None:
                return key, gone

    def __len__(self) -> int:
        rows = int(lib.shim_length(self._at))
        return rows if rows >= 0 else _refuse(lib.BLINK_CLOSED)

    def __repr__(self) -> str:
        if self.closed:
            return f"<{type(self).__name__}, closed>"
        rows = [f"{key}: {value}" for key, value in itertools.islice(self._items(0, _MOST), 21)]
        return f"{type(self).__name__}({{{', '.join(rows[:20])}{', ...' if len(rows) > 20 else ''}}})"

    # Copies and images.

    def copy(self) -> Map:
        """A map with the same rows, without a path. It grows as this one does, or has as many pages."""
        return type(self)(self, pages=None if self._at.most > self.pages else self.pages, seats=self.seats)

    __copy__ = copy

    def __deepcopy__(self, memo: dict[int, Any]) -> Map:
        return self.copy()

    def __reduce__(self) -> tuple[Any, ...]:
        """Pickles the map's image, as image() makes it: what is read again has the same rows and pages, and no path."""
        return _of_image, (type(self), self.image(), self.seats)

    def __or__(self, other: Mapping[int, int]) -> Map:
        if not isinstance(other, Mapping):
            return NotImplemented
        both = self.copy()
        both.update(other)
        return both

    def __ior__(self, other: Mapping[int, int]) -> Map:
        self.update(other)
        return self

    def _close_to(self, goes_on: bool) -> tuple[bytearray, bool]:
        """Closes the map to its image, and opens it again where it is to go on: the image, and whether it does."""
        is_open, code = _new("bool *", goes_on), lib.BLINK_FEW_BYTES
        # It may grow until it is closed.
        while code == lib.BLINK_FEW_BYTES:
            image = bytearray(lib.blink_image_length(self.pages))
            size = _new("size_t *", len(image))
            code = lib.shim_image(self._at, ffi.from_buffer("uint8_t[]", image), size, is_open)
        if code == lib.BLINK_CLOSED:
            kept = _new("uint8_t **")
            length = lib.shim_kept(self._at, kept)
            if length:
                return bytearray(ffi.buffer(kept[0], length)), True
        if code != _OK:
            _refuse(code)
        # That of a large map may be shorter.
        return image if size[0] == len(image) else image[: size[0]], bool(is_open[0])

    def image(self) -> bytes:
        """The map's image. Calls of other threads wait meanwhile, since it is closed and opened again. Where memory was refused as it
        grew, and it is closed since, this and save() give its rows all the same."""
        with self._saving:
            image, is_open = self._close_to(True)
        if not is_open:
            _lost(image, "there was no memory to open the map again: its rows are in this error's `image`")
        return bytes(image)

    def save(self, path: str | os.PathLike[str] | None = None) -> None:
        """Writes the map's image to a file, by default that of its `path`: to a new file first, which takes its place."""
        place = self._path if path is None else path
        if place is None:
            raise ValueError("the map has no path: save(path)")
        with self._saving:
            image, is_open = self._close_to(True)
            try:
                _write(place, image)
            except OSError as error:
                if not is_open:
                    _lost(image, f"{error}, and there was no memory to open the map again: its rows are in `image`")
                raise
        if not is_open:
            raise Closed(f"there was no memory to open the map again: its rows are in {os.fspath(place)}")

    def close(self) -> None:
        """Closes the map, with its image in the file where it has a path, and else its rows are gone. Where the file cannot
        be written the map stays open. Further calls raise Closed; a further close does nothing."""
        with self._saving:
            if self.closed:
                return
            if self._path is None:
                lib.shim_close(self._at)
                return
            image, _ = self._close_to(False)
            try:
                _write(self._path, image)
            except OSError as error:
                if lib.shim_reopen(self._at, ffi.from_buffer("uint8_t[]", image), len(image)) != _OK:
                    _lost(image, f"{error}, and there was no memory to open the map again: its rows are in `image`")
                raise

    @property
    def closed(self) -> bool:
        """Whether the map is closed."""
        return bool(lib.shim_find_surely(self._at, 0, _new("uint64_t *")) == lib.BLINK_CLOSED)

    @property
    def pages(self) -> int:
        """How many pages the map has."""
        return int(self._at.pages)

    @property
    def free_pages(self) -> int:
        """How many pages are free, about: others take and free some. Six rows surely fit into each but for the last two."""
        free = int(lib.shim_free_pages(self._at))
        return free if free >= 0 else _refuse(lib.BLINK_CLOSED)

    @property
    def seats(self) -> int:
        """How many calls may be underway at once."""
        return int(self._at.count)

    def __enter__(self) -> Map:
        return self

    def __exit__(self, *_: object) -> None:
        self.close()

    def __del__(self) -> None:
        # As a file does: what was put since the last save() goes with the map.
        if getattr(self, "_path", None) is not None and not self.closed:
            warnings.warn(f"the map of {os.fspath(self._path)} was not closed", ResourceWarning, source=self)


class _Keys(KeysView[int]):
    """The keys of a map."""

    def __reversed__(self) -> Iterator[int]:
        return reversed(self._mapping)  # type: ignore[attr-defined]


class _Items(ItemsView[int, int]):
    """The rows of a map, which are read as pairs."""

    def __iter__(self) -> Iterator[tuple[int, int]]:
        return self._mapping._items(0, _MOST)  # type: ignore[attr-defined, no-any-return]

    def __reversed__(self) -> Iterator[tuple[int, int]]:
        return self._mapping._items(0, _MOST, True)  # type: ignore[attr-defined, no-any-return]


class _Values(ValuesView[int]):
    """The values of a map, by rising keys."""

    def __iter__(self) -> Iterator[int]:
        return (value for _, value in self._mapping._items(0, _MOST))  # type: ignore[attr-defined]

    def __reversed__(self) -> Iterator[int]:
        return (value for _, value in self._mapping._items(0, _MOST, True))  # type: ignore[attr-defined]


def _of_image(kind: type[Map], image: bytes, seats: int) -> Map:
    return kind.from_image(image, seats=seats)


def _lost(image: bytearray, text: str) -> NoReturn:
    error = Closed(text)
    error.image = bytes(image)
    raise error


def _write(path: str | os.PathLike[str], image: bytearray) -> None:
    """Puts an image in the place of a file, whose mode it keeps; a link leads to the file that is replaced."""
    place = os.path.realpath(path)
    beside = f"{place}.{os.getpid()}.new"
    try:
        with open(beside, "xb") as file:
            file.write(image)
            file.flush()
            os.fsync(file.fileno())
        if os.path.exists(place):
            os.chmod(beside, os.stat(place).st_mode & 0o7777)
        os.replace(beside, place)
    except BaseException:
        if os.path.exists(beside):
            os.unlink(beside)
        raise


# Forks. A child of a program with threads may not call the library, not even to free a map.

_living: weakref.WeakValueDictionary[int, Map] = weakref.WeakValueDictionary()
# Whether the program had threads when it forked last, and whether this process is the child of one that had.
_had_threads = False
_is_orphan = False


def _free(at: Any) -> None:
    if not _is_orphan:
        lib.shim_free(at)


def _closed_map() -> Any:
    made = _new("shim_map **")
    if lib.shim_open(4, 0, 1, ffi.NULL, 0, made) != _OK:
        raise MemoryError("there is no memory for a map of four pages")
    lib.shim_close(made[0])
    return made[0]


_CLOSED = _closed_map()


def _before_fork() -> None:
    global _had_threads
    _had_threads = threading.active_count() > 1


def _in_child() -> None:
    global _is_orphan
    _is_orphan = _is_orphan or _had_threads
    if _is_orphan:
        for map_ in list(_living.values()):
            map_._at = _CLOSED
            map_._saving = threading.Lock()


os.register_at_fork(before=_before_fork, after_in_child=_in_child)
