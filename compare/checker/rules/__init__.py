"""The rules of docs/RULES.md: what every program has to answer."""
