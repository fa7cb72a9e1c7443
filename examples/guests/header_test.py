"""Compiles xm.h, xmcompat.h and irqs.h as each language that flight code is written in, without a warning.

usage: /usr/bin/python3 -m pytest examples/guests/header_test.py
"""

import shutil
import subprocess
from pathlib import Path

import pytest

HERE = Path(__file__).resolve().parent
HEADERS = ["xm.h", "xmcompat.h", "irqs.h"]
FLAGS = ["-m32", "-mcpu=v8", "-Wall", "-Wextra", "-Werror", f"-I{HERE}", "-S", "-o", "/dev/null", "-"]
C = ["c89", "gnu89", "c99", "gnu99", "c11", "c17"]
CPP = ["c++98", "gnu++98", "c++11", "c++14", "c++17", "c++20"]
USES = "#include <{header}>\nint self(void);\nint self(void) {{ return XM_get_self(); }}\n"
DROPS = "#include <xm.h>\nvoid drop(void);\nvoid drop(void) { XM_create_sampling_port(\"a\", 4, XM_SOURCE); }\n"


def compiled(source: str, language: str, *options: str) -> str:
    """What the compiler says of a source."""
    compiler = f"sparc64-linux-gnu-{'g++' if language == 'c++' else 'gcc'}"
    if shutil.which(compiler) is None:
        pytest.skip(f"no {compiler}")
    done = subprocess.run([compiler, "-x", language, *options, *FLAGS], input=source, capture_output=True, text=True)
    return done.stderr


@pytest.mark.parametrize("header", HEADERS)
@pytest.mark.parametrize("standard", C)
def test_c_of_any_year(header: str, standard: str) -> None:
    assert compiled(USES.format(header=header), "c", f"-std={standard}", "-pedantic") == ""


@pytest.mark.parametrize("header", HEADERS)
@pytest.mark.parametrize("standard", CPP)
def test_cpp_of_any_year(header: str, standard: str) -> None:
    assert compiled(USES.format(header=header), "c++", f"-std={standard}") == ""


def test_a_result_that_is_dropped_is_named() -> None:
    assert "XM_create_sampling_port" in compiled(DROPS, "c", "-std=c11")
