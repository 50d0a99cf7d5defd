"""In place of the package of this name: a SortedDict over blink's map, so that the package's own tests of SortedDict drive the
map.

Keys are numbers or short texts, which are written as numbers such that their order is kept; values are numbers or None. What
goes by position (islice, index, bisect) counts along the keys, since the map has no ranks. An order by a function of the key
is not there."""

import itertools
from collections.abc import ItemsView, KeysView, ValuesView

from blink import Map

_TEXT, _ZERO, _NONE = 1 << 63, 1 << 61, 1 << 63


def _key(key):
    if isinstance(key, str):
        word = key.encode()
        if len(word) > 7 or b"\0" in word:
            raise TypeError("a text of 7 bytes at most")
        return _TEXT | int.from_bytes(word.ljust(7, b"\0"), "big")
    if isinstance(key, int) and -_ZERO <= key < _ZERO:
        return key + _ZERO
    raise TypeError("a number or a short text")


def _unkey(word):
    return (word & (_TEXT - 1)).to_bytes(8, "big").replace(b"\0", b"").decode() if word & _TEXT else word - _ZERO


def _value(value):
    return _NONE if value is None else value + _ZERO


def _unvalue(word):
    return None if word == _NONE else word - _ZERO


class _Sequence:
    def __getitem__(self, index):
        return list(self)[index]

    def __reversed__(self):
        return reversed(list(self))

    def index(self, value):
        return list(self).index(value)

    def count(self, value):
        return list(self).count(value)

    def __repr__(self):
        return f"{self.name}({self._mapping!r})"


class _Rising(set):
    def __iter__(self):
        return iter(sorted(set.__iter__(self)))


class SortedKeysView(_Sequence, KeysView):
    name = "SortedKeysView"

    @classmethod
    def _from_iterable(cls, it):
        return _Rising(it)


class SortedItemsView(_Sequence, ItemsView):
    name = "SortedItemsView"

    def __iter__(self):
        return ((_unkey(k), _unvalue(v)) for k, v in self._mapping.map.items())

    @classmethod
    def _from_iterable(cls, it):
        return _Rising(it)


class SortedValuesView(_Sequence, ValuesView):
    name = "SortedValuesView"

    def __iter__(self):
        return (_unvalue(v) for v in self._mapping.map.values())


_NOT_GIVEN = object()


class SortedDict(dict):
    """A dict by its type alone, as the package's own is; the rows are in the map."""

    key = None

    def __init__(self, *args, **names):
        if args and callable(args[0]) or args and args[0] is None:
            if args[0] is not None:
                raise NotImplementedError("an order by a function")
            args = args[1:]
        self.map = Map(pages=4096, seats=2)
        self.update(*args, **names)

    def update(self, *args, **names):
        for key, value in dict(*args, **names).items():
            self[key] = value

    def _check(self):
        rows = list(self.map.items())
        assert len(rows) == len(self.map)
        assert all(one[0] < two[0] for one, two in zip(rows, rows[1:]))
        assert all(self.map[key] == value for key, value in rows)

    def _reset(self, load):
        pass

    def __len__(self):
        return len(self.map)

    def __iter__(self):
        return (_unkey(k) for k in self.map)

    def __reversed__(self):
        return (_unkey(k) for k in reversed(self.map))

    def __contains__(self, key):
        return _key(key) in self.map

    def __getitem__(self, key):
        return _unvalue(self.map[_key(key)])

    def __setitem__(self, key, value):
        self.map[_key(key)] = _value(value)

    def __delitem__(self, key):
        del self.map[_key(key)]

    def get(self, key, default=None):
        value = self.map.get(_key(key))
        return default if value is None else _unvalue(value)

    def clear(self):
        self.map.clear()

    def copy(self):
        return type(self)(self)

    __copy__ = copy

    @classmethod
    def fromkeys(cls, keys, value=None):
        return cls((key, value) for key in keys)

    def keys(self):
        return SortedKeysView(self)

    def items(self):
        return SortedItemsView(self)

    def values(self):
        return SortedValuesView(self)

    def pop(self, key, default=_NOT_GIVEN):
        value = self.map.pop(_key(key), None)
        if value is None and default is _NOT_GIVEN:
            raise KeyError(key)
        return default if value is None else _unvalue(value)

    def popitem(self, index=-1):
        if not self.map:
            raise KeyError("no rows")
        key, value = self.map.popitem(index)
        return _unkey(key), _unvalue(value)

    def peekitem(self, index=-1):
        key, value = self.map.peekitem(index)
        return _unkey(key), _unvalue(value)

    def setdefault(self, key, default=None):
        return _unvalue(self.map.setdefault(_key(key), _value(default)))

    def islice(self, start=None, stop=None):
        return itertools.islice(iter(self), start, stop)

    def irange(self, minimum=None, maximum=None, inclusive=(True, True), reverse=False):
        low, high = (None if key is None else _key(key) for key in (minimum, maximum))
        return (_unkey(k) for k in self.map.irange(low, high, inclusive, reverse))

    def index(self, key, start=0, stop=None):
        at = self.bisect_left(key)
        keys = list(self)
        if at not in range(*slice(start, stop).indices(len(keys))) or keys[at] != key:
            raise ValueError(f"{key!r} is not there")
        return at

    def bisect_left(self, key):
        return sum(1 for _ in self.map.irange(None, _key(key), (True, False)))

    def bisect_right(self, key):
        return sum(1 for _ in self.map.irange(None, _key(key)))

    bisect = bisect_right

    def __eq__(self, other):
        return dict(self.items()) == (dict(other.items()) if hasattr(other, "items") else other)

    def __ne__(self, other):
        return not self == other

    def __or__(self, other):
        if not hasattr(other, "items"):
            return NotImplemented
        return type(self)(itertools.chain(self.items(), other.items()))

    def __ror__(self, other):
        if not hasattr(other, "items"):
            return NotImplemented
        return type(self)(itertools.chain(other.items(), self.items()))

    def __ior__(self, other):
        self.update(other)
        return self

    def __repr__(self):
        return f"{type(self).__name__}({{{', '.join(f'{k!r}: {v!r}' for k, v in self.items())}}})"
