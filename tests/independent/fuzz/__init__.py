"""The files on which `tests/program/compare.py` compares the program with the independent reader, and `tests/program/definitions.py` with the definitions,
and the altered texts of `tests/program/altered.py`."""
