"""The version of package, command and library: it grows with every request that changes an answer (docs/CHANGES.md)."""

VERSION = "0.4.0"

#: The formats that the library reads.
FORMATS = (3,)
