"""A checker of the programs, written from docs/RULES.md alone.

`rules` computes answers, `inputs` makes inputs from a seed, `runs` builds and runs the programs and compares.
"""
