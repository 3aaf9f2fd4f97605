"""A second reader of pattern files and rule tables, in plain Python, written from docs/FORMATS.md alone: it shares no code and no definition with
the crates. Each module follows the sections of that page that its first lines name. `commands` says what each command of the program has to answer;
`tests/program/compare.py` holds the built program against it."""
