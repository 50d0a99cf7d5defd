"""Builds the package with its module in C; pyproject.toml has the rest."""

# Without it setuptools leaves the module out and says nothing.
import cffi  # noqa: F401
from setuptools import setup

setup(cffi_modules=["build_shim.py:ffi"])
