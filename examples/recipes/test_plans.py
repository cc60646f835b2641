"""Tests of plans, for the CI of a test bench: each plan's report and status, and what single plans are there for.

usage: pytest test_plans.py

The program is $MASTROLU, else ./mastrolu; the plans are those of $PLANS, else examples. Each has the report of its run beside it.
"""
import os, pathlib, subprocess
import pytest

PROGRAM = os.environ.get("MASTROLU", "./mastrolu")
PLANS = pathlib.Path(os.environ.get("PLANS", "examples"))
WELL = ("clear", "sent", "declined", "passed")


def run(plan):
    """The status and the report's lines."""
    ran = subprocess.run([PROGRAM, "run"], input=plan.read_bytes(), stdout=subprocess.PIPE, timeout=60)
    return ran.returncode, ran.stdout.decode("ascii").splitlines()


def last_outcomes(lines):
    """The outcome of each item's last attempt."""
    attempts = [line.split() for line in lines if line.startswith("attempt ")]
    return {tuple(fields[3:8:2]): fields[13] for fields in attempts}


def test_there_are_plans():
    assert list(PLANS.glob("*.toml"))


@pytest.mark.parametrize("plan", sorted(PLANS.glob("*.toml")), ids=lambda plan: plan.name)
def test_report_and_status(plan):
    status, lines = run(plan)
    assert lines == plan.with_suffix(".report").read_text().splitlines()
    assert status == (0 if all(outcome in WELL for outcome in last_outcomes(lines).values()) else 1)


# what must be in a report, whatever else changes there
@pytest.mark.parametrize("name, status, line", [
    ("one-message.toml", 0, "block 5 1 0102 0304"),
    ("retry.toml", 0, "attempt 2 station 31 frame 1 item 1 try 2 A 88 2C21 clear status 2800 words 0000"),
    ("fault-cut.toml", 1, "attempt 1 station 31 frame 1 item 1 try 1 A 8 2823 no-response 1"),
])
def test_line(name, status, line):
    got, lines = run(PLANS / name)
    assert got == status
    assert line in lines
