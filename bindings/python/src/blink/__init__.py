"""An ordered map from 64-bit integers to 64-bit integers that many threads use at once.

>>> from blink import Map
>>> prices = Map({5: 50, 9: 90}, pages=64)
>>> prices[1] = 10
>>> list(prices)
[1, 5, 9]
>>> list(prices.irange(2, 9)), prices.peekitem(-1)
([5, 9], (9, 90))
>>> prices.change(5, 50, 51)
True
>>> prices.pop(5), len(prices), 5 in prices
(51, 2, False)

The map is that of the proved C library; this package is tested and not proved.
"""

from ._map import BadImage, Closed, Error, Map, NoRoom, Unsteady, library_version

__all__ = ["BadImage", "Closed", "Error", "Map", "NoRoom", "Unsteady", "library_version"]
__version__ = "0.1.0"
