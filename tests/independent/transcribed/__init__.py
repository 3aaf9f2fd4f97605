"""The definitions of the formats, of rules, of rule tables, of one generation, and of the texts that are written, said once more in Python: one function for
one definition, under its name, in a module named after its file. `tests/program/definitions.py` and `tests/program/altered.py` compare them with the
program, which they have nothing else in common with. A record that allows one text only is the function that makes this text.

A list of bytes is `bytes`, and another list a list. `Ok x` is an answer `x`; `Err kind` is raised, so that `>>=` is one statement behind another. A
step by recursion over a list is a loop, and a sum that each step would take anew is kept.
"""
