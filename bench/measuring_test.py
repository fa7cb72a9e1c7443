"""Tries what the scripts of this folder share, and what guest_speed, peers and pack_speed print, over figures and runs that are made up.

Tries the files that the Makefile makes for peers, too, where there is a cross compiler.
"""
import importlib.machinery
import importlib.util
import os
import shutil
import struct
import sys

import pytest

sys.path.insert(0, os.path.dirname(os.path.realpath(__file__)))

import measuring


def script(name):
    """A script of this folder as a module."""
    loader = importlib.machinery.SourceFileLoader(name, f"{measuring.BENCH}/{name}")
    module = importlib.util.module_from_spec(importlib.util.spec_from_loader(name, loader))
    loader.exec_module(module)
    return module


@pytest.mark.parametrize("guest", measuring.GUESTS)
def test_a_guest_has_an_image_and_its_file_says_what_it_does(guest):
    image = measuring.image_of(guest)
    assert 0 < os.path.getsize(image) < 4096
    with open(image.replace(".bin", ".c")) as file:
        said = file.read().split("*/")[0]
    assert said.startswith("/*\n") and "without end" in said


def test_the_mean_of_ratios_is_the_ratio_of_means():
    assert measuring.mean([1, 4, 16]) == pytest.approx(4)
    assert measuring.mean([2 / 1, 9 / 4]) == pytest.approx(measuring.mean([2, 9]) / measuring.mean([1, 4]))


def test_a_rate_is_of_the_difference_of_the_best_runs(monkeypatch):
    seconds = iter([5, 30, 1, 12, 2, 11])
    monkeypatch.setattr(measuring, "TURNS", 3)
    monkeypatch.setattr(measuring, "seconds_of", lambda run: next(seconds))
    assert measuring.rates({"a guest": [(50_000_000, None), (250_000_000, None)]}) == {"a guest": 20}


def test_a_profile_has_what_callgrind_counted(tmp_path):
    path = tmp_path / "out"
    path.write_text(
        "ob=/a/prog\nfn=first\n0x10 1 5\n0x14 2 7\ncalls=1 0x20\n0x14 2 100\nob=/a/libc\nfn=second\n0x10 3 11\ntotals: 23\n"
    )
    profile = measuring.Profile(path, "prog")
    assert profile.total == 23
    assert profile.by_function == {"first": 12, "second": 11}
    assert profile.by_address == {0x10: 5, 0x14: 7}


def table(capsys, rows):
    speed = script("guest_speed")
    speed.print_table("guest", [*rows, speed.mean_row(rows)])
    return [line.split() for line in capsys.readouterr().out.splitlines()]


def test_ratios_are_to_the_first_row(capsys):
    head, *rows = table(capsys, [("one", [20], [100]), ("two", [45], [400])])
    assert " ".join(head) == "guest host instructions ratio million a second ratio"
    assert rows == [
        ["one", "20.0", "1.00", "100", "1.00"],
        ["two", "45.0", "2.25", "400", "4.00"],
        ["mean", "30.0", "1.50", "200", "2.00"],
    ]


def test_ratios_are_to_the_previous_program(capsys):
    head, *rows = table(capsys, [("one", [20, 40], [300, 100]), ("two", [45, 90], [300, 225])])
    assert " ".join(head) == "guest host instructions previous ratio million a second previous ratio"
    assert rows == [
        ["one", "20.0", "40.0", "0.50", "300", "100", "3.00"],
        ["two", "45.0", "90.0", "0.50", "300", "225", "1.33"],
        ["mean", "30.0", "60.0", "0.50", "300", "150", "2.00"],
    ]


def test_peers_are_compared_with_bare(capsys):
    rate = {("one", "bare"): 100, ("one", "qemu"): 400, ("two", "bare"): 200, ("two", "qemu"): 200, ("two", "sis"): 50}
    script("peers").print_rates(["one", "two"], ["bare", "sis", "qemu"], rate)
    rows = [line.split() for line in capsys.readouterr().out.splitlines()]
    assert rows == [
        ["million", "a", "second", "bare", "sis", "ratio", "qemu", "ratio"],
        ["one", "100", "400", "4.00"],
        ["two", "200", "50", "0.25", "200", "1.00"],
        ["mean", "141", "283", "2.00"],
    ]


def test_sums_are_the_calls_of_the_function_of_md5(tmp_path):
    path = tmp_path / "out"
    path.write_text(
        "fn=md5::Md5::absorb\n0x10 1 5\ncfn=md5::compress::compress\ncalls=30 0x20\n0x14 2 100\n"
        "cfn=memcpy\ncalls=7 0x40\n0x18 2 9\ncfn=md5::compress::compress\ncalls=2 0x20\n0x1c 2 7\ntotals: 121\n"
    )
    assert script("pack_speed").sums_of(path, 1024) == 2


def test_a_row_of_a_command_has_the_program_of_before():
    row = script("pack_speed").row
    assert row("list", [(21.5, 2, 31.8)]).split() == ["list", "21.5", "2.00", "31.8"]
    both = row("list", [(21.5, 2, 30), (43, 3, 60)]).split()
    assert both == ["list", "21.5", "2.00", "30.0", "43.0", "0.50", "3.00", "60.0", "0.50"]


def test_the_image_that_is_packed_has_its_size_and_its_area():
    text, image = script("pack_speed").system()
    assert len(image) == (15 << 20) + 84
    assert text.count('size="16MB"') == 1 and text.count('size="32MB"') == 1


def pages_of(path, wanted):
    """The pages of 4096 bytes in which a program file has a segment with one of some flags."""
    with open(path, "rb") as file:
        content = file.read()
    start, size, count = struct.unpack_from(">I", content, 28)[0], *struct.unpack_from(">HH", content, 42)
    pages = set()
    for place in range(start, start + size * count, size):
        kind, _, address, _, _, length, flags, _ = struct.unpack_from(">8I", content, place)
        if kind == 1 and flags & wanted:
            pages.update(range(address // 4096, (address + length - 1) // 4096 + 1))
    return pages


@pytest.mark.skipif(shutil.which("sparc64-linux-gnu-gcc") is None, reason="there is no cross compiler")
@pytest.mark.parametrize("guest", measuring.GUESTS)
def test_on_a_board_no_page_has_code_and_data(guest):
    executed, written = 1, 2
    path = script("peers").made(f"leon3/{guest}.1.elf")
    code, data = pages_of(path, executed), pages_of(path, written)
    assert code and data and not code & data
