#!/usr/bin/env python3
"""Compares what the programs print with answers computed from docs/RULES.md (README.md)."""

import sys

from checker.command import main

sys.exit(main())
