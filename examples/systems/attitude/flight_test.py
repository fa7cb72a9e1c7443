"""Tries flight.py: the words of the gyro against words worked by hand, and reports that differ in one thing.

Tries attitude.expect and what the campaigns expect in the same way: each line is met by the report, and refuses a report that
differs in one thing.

usage: /usr/bin/python3 -m pytest examples/systems/attitude/flight_test.py
"""

import subprocess
import sys
from pathlib import Path

import pytest

sys.dont_write_bytecode = True
HERE = Path(__file__).resolve().parent
sys.path.insert(0, str(HERE))

import flight as tried  # noqa: E402

REPORT = (HERE / "attitude.report").read_text(encoding="utf-8")


@pytest.mark.parametrize(
    ("number", "rate", "word"),
    [
        (0, 0.02, 0x00402710),  # 10000 counts; 0 ^ 0 ^ 4 ^ 2 ^ 7 ^ 1 ^ 0 = 0
        (1, -0.00002, 0x014CFFF6),  # -10 counts; 0 ^ 1 ^ 4 ^ f ^ f ^ f ^ 6 = c
        (6, 0.0, 0x06430000),  # 0 ^ 6 ^ 4 = 2, with the last bit wrong
        (12, 0.0, 0x0C0C0000),  # the divider 0; 0 ^ c = c
    ],
)
def test_a_word_has_its_number_divider_check_and_counts(number: int, rate: float, word: int) -> None:
    assert tried.word_of(number, rate) == word


def test_a_rate_is_read_back() -> None:
    assert tried.rate_of(tried.word_of(3, -0.001)) == -0.001


def test_the_report_is_as_expected() -> None:
    assert tried.differences(REPORT, tried.Flight.of(tried.FRAMES)) == []


@pytest.mark.parametrize(
    ("old", "new", "fault"),
    [
        ("torque -18748", "torque -18747", "wheel: the console differs"),
        ("XM_HM_AC_PARTITION_WARM_RESET", "XM_HM_AC_HALT", "health events"),
        ("[599999] XM PLAN 1", "[619999] XM PLAN 1", "plans"),
        ("END P2 idle", "END P2 halted", "control: it did not go on"),
        ("[144448] P1 CON gyro: dropped word 6\\n\n", "", "gyro: the console differs"),
    ],
)
def test_a_report_with_one_thing_wrong_differs(old: str, new: str, fault: str) -> None:
    assert old in REPORT
    faults = tried.differences(REPORT.replace(old, new, 1), tried.Flight.of(tried.FRAMES))
    assert any(found.startswith(fault) for found in faults)


def unmet(report: str, folder: Path, expected: str = "attitude.expect") -> list[str]:
    """The expectations of a file that a report does not meet."""
    path = folder / "report.txt"
    path.write_text(report, encoding="utf-8")
    words = [HERE.parents[2] / "tools/xm", "expect", path, HERE / expected, "--names", HERE / "attitude.xml"]
    done = subprocess.run([sys.executable, *words], capture_output=True, text=True)
    found = [line.split(": not met: ", 1)[1] for line in done.stdout.splitlines() if ": not met: " in line]
    assert (done.returncode, done.stderr) == (1 if found else 0, "")
    return found


def test_the_report_meets_its_expectations(tmp_path: Path) -> None:
    assert unmet(REPORT, tmp_path) == []


@pytest.mark.parametrize(
    ("old", "new", "expectation"),
    [
        ("XM_HM_AC_PARTITION_WARM_RESET", "XM_HM_AC_HALT", "gyro HM *DIVIDE*WARM_RESET times 3"),
        ("[266318] P1 CON", "[268080] P1 CON", "gyro within 4ms of gyro HM"),
        ("gyro: dropped word 6", "gyro: dropped word 5", 'gyro CON "gyro: dropped word 6"'),
        ("[280681] P0 CON", "[284080] P0 CON", "fdir within 20ms of gyro HM"),
        ("[581149] P0 CON fdir: ask for plan 1\\n\n", "", "XM within 20ms of fdir"),
        ("gyro: test 1", "gyro: test 0", "gyro within 20ms of XM PLAN 1"),
        ("[639999] XM PLAN 2\n", "", "XM within 60ms of XM PLAN 1 PLAN 2"),
        ("[600072] P1 COLD\n", "", "gyro COLD times 2"),
        ("[600072] P1 COLD\n", "[600072] P2 HALT\n", "no HALT"),
        ("wheel: step 60 ", "wheel: step 61 ", 'wheel CON "wheel: step 60 *"'),
        ("END P2 idle", "END P2 suspended", "control ends idle"),
        ("END P3 idle resets=0", "END P3 idle resets=1", "wheel resets 0"),
    ],
)
def test_a_report_with_one_thing_wrong_is_refused(old: str, new: str, expectation: str, tmp_path: Path) -> None:
    assert old in REPORT
    assert any(found.startswith(expectation) for found in unmet(REPORT.replace(old, new, 1), tmp_path))


# The runs of words.toml have ten frames, and so ten torques, more.
MORE = "".join(f"[{1199929 + step}] P3 CON wheel: step {step} torque 0 speed 0\\n\n" for step in range(61, 71))
REPORTS = {"upsets.expect": REPORT, "words.expect": REPORT.replace("END P0", f"{MORE}END P0")}


@pytest.mark.parametrize("expected", REPORTS)
def test_the_report_meets_what_campaigns_expect(expected: str, tmp_path: Path) -> None:
    assert unmet(REPORTS[expected], tmp_path, expected) == []


@pytest.mark.parametrize(
    ("old", "new", "expected", "expectation"),
    [
        ("torque -20000", "torque -21000", "upsets.expect", 'wheel no CON "* torque *2[1-9]??? speed *"'),
        ("torque 1056", "torque 31056", "upsets.expect", 'wheel no CON "* torque *[3-9]???? speed *"'),
        ("torque 1056", "torque 131056", "upsets.expect", 'wheel no CON "* torque *[0-9]????? speed *"'),
        ("[639999] XM PLAN 2\n", "", "upsets.expect", "XM PLAN 2 times 1"),
        ("XM_HM_AC_PARTITION_WARM_RESET", "XM_HM_AC_PARTITION_COLD_RESET", "words.expect", "gyro no HM *COLD_RESET"),
        ("[266318] P1 CON", "[268080] P1 CON", "words.expect", "gyro within 4ms of any gyro HM"),
        ("[280681] P0 CON", "[284080] P0 CON", "words.expect", "fdir within 20ms of any gyro HM"),
        ("[599999] XM PLAN 1\n", "", "words.expect", "XM within 20ms of any fdir"),
        ("gyro: test 1", "gyro: test 0", "words.expect", "gyro within 20ms of any XM PLAN 1"),
        ("[639999] XM PLAN 2\n", "", "words.expect", "XM within 60ms of any XM PLAN 1 PLAN 2"),
        ("wheel: step 9 ", "wheel: late 9 ", "words.expect", 'wheel CON "wheel: step * torque * speed *" times 70'),
        ("torque -20000", "torque -21000", "words.expect", 'wheel no CON "* torque *2[1-9]??? speed *"'),
        ("[600072] P1 COLD\n", "[600072] P2 HALT\n", "words.expect", "no HALT"),
    ],
)
def test_what_a_campaign_expects_refuses_one_thing_wrong(old: str, new: str, expected: str, expectation: str, tmp_path: Path) -> None:
    assert old in REPORTS[expected]
    assert any(found.startswith(expectation) for found in unmet(REPORTS[expected].replace(old, new, 1), tmp_path, expected))
