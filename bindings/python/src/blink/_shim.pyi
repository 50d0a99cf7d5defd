"""The module that build_shim.py makes."""

from typing import Any

ffi: Any
lib: Any
