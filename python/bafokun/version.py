"""The version, that of bafokun.h and of `conode --version`."""

__version__ = "0.39.0"
