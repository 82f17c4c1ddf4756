"""The version of this package and of the shared library that it needs."""

__version__ = "0.2.0"
