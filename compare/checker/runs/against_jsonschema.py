"""Program `ask` about amount leaves beside Python's jsonschema: the same yes or no to the same question."""

from __future__ import annotations

import json
import shutil
import subprocess
import sys
from itertools import islice
from pathlib import Path
from typing import Optional

from ..inputs.schemas import SchemaQuestion, schema_questions
from .executables import run
from .parts import Job, in_groups
from .tally import Tally

VALIDATOR = Path(__file__).with_name("validator.py")
DEBIAN_PYTHON = "/usr/bin/python3"
QUESTIONS_IN_A_RUN = 1000
ASK_FOR_VERSION = """
from importlib.metadata import version
from jsonschema import Draft202012Validator
print(version("jsonschema"))
"""


def check_against_jsonschema(job: Job) -> Tally:
    """Questions in both forms; skipped where no Python that is found here has jsonschema."""
    pythons = list(dict.fromkeys(filter(None, (DEBIAN_PYTHON, sys.executable, shutil.which("python3")))))
    versions = {python: version for python in pythons if (version := version_of_jsonschema(python))}
    if not versions:
        looked_at = ", ".join(pythons)
        skipped = f"no package jsonschema with draft 2020-12 in {looked_at} (Debian has it as python3-jsonschema)"
        return Tally("jsonschema", "questions", skipped=skipped)
    python, version = next(iter(versions.items()))
    tally = Tally("jsonschema", "questions", (f"jsonschema {version} of {python}", "ask"))
    for group in in_groups(islice(schema_questions(job.rng), job.count), QUESTIONS_IN_A_RUN):
        asked = job.executables.run("ask", b"".join(question.line + b"\n" for question in group))
        validated = run([python, str(VALIDATOR)], "\n".join(map(json_line, group)).encode())
        answers, verdicts = asked.output.splitlines()[:-1], validated.output.splitlines()
        if (len(answers), len(verdicts), asked.status, validated.status) != (len(group), len(group), 0, 0):
            tally.add_difference("(all answers of a run of these)", str(validated), str(asked))
            continue
        for question, verdict, answer in zip(group, verdicts, answers):
            tally.inputs[question.shape] += 1
            tally.answers[verdict.decode()] += 1
            tally.compare(f"{question.line.decode()} = {json_line(question)}", verdict.decode(), answer.decode())
    return tally


def version_of_jsonschema(python: str) -> Optional[str]:
    """The version of jsonschema that this Python has, if it has one with draft 2020-12."""
    try:
        done = subprocess.run([python, "-c", ASK_FOR_VERSION], capture_output=True, text=True, check=False)
    except OSError:
        return None
    return done.stdout.strip() if done.returncode == 0 else None


def json_line(question: SchemaQuestion) -> str:
    """The question as the validator reads it."""
    return json.dumps([question.schema, question.instance])
