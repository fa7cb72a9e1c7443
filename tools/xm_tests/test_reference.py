"""The tables of the tools are those of the pages."""

import subprocess

from conftest import ROOT
from xm_tools.reference import reference


def test_the_tables_are_those_of_the_pages() -> None:
    done = subprocess.run([ROOT / "tools/xm_reference", "--check"], capture_output=True, text=True, check=False)
    assert (done.returncode, done.stderr) == (0, "")


def test_there_are_22_rules_12_events_and_11_actions() -> None:
    tables = reference()
    assert sorted(tables.rules) == list(range(1, 23))
    assert (len(tables.events), len(tables.actions)) == (12, 11)
    assert all(rule.holds and rule.remedy and rule.name for rule in tables.rules.values())
