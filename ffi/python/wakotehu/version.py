"""The version of the package and of the library inside it."""

__version__ = "0.2"
