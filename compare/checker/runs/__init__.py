"""Runs: the programs are built and run on inputs, and what they print is compared with what the rules say."""
