"""What the commands here share: the published parser's two programs, the drivers, the sheets of oracle/gen.py, and what a program prints of each sheet."""
import os
import subprocess
import sys
import tempfile

HERE = os.path.dirname(os.path.abspath(__file__))
ROOT = os.path.dirname(HERE)
ORACLE = os.path.join(HERE, "oracle")
sys.path[:0] = [os.path.join(ROOT, "tools"), ORACLE]  # for the imports here and in the programs that import this
from library import library
from published import warn


def oracles(sources, folder):
    """the published parser without limits, and with the documents' limits and answers"""
    warn(sources)
    subprocess.run([os.path.join(ORACLE, "build.sh"), sources, folder], check=True, stdout=subprocess.DEVNULL)
    return os.path.join(folder, "oracle"), os.path.join(folder, "oracle01")


def driver(name, crate, folder):
    """NAME.c over the library of a crate"""
    program = os.path.join(folder, name)
    subprocess.run(["cc", "-O2", "-I", os.path.join(ROOT, "host"), os.path.join(HERE, name + ".c"), library(crate), "-o", program], check=True)
    return program


def build(sources, folder):
    """the commands of the reader's driver, oracle01 and oracle"""
    oracle, oracle01 = oracles(sources, folder)
    return [[driver("driver", "parser", folder)], [oracle01, "--state"], [oracle, "--state"]]


def generated(*words):
    """the sheets that gen.py makes with these options"""
    return subprocess.run([os.path.join(ORACLE, "gen.py"), *words], stdout=subprocess.PIPE, text=True, check=True).stdout


def printed_by(program, made):
    """what a program prints for these sheets"""
    with tempfile.TemporaryFile("w+") as sheets:
        sheets.write(made)
        sheets.seek(0)
        return subprocess.run(program, stdin=sheets, stdout=subprocess.PIPE, text=True, check=True).stdout


def sections(text):
    """what stands under each `sheet` line, the line first"""
    return ("\n" + text).split("\nsheet ")[1:]


def body(section):
    return section.split("\n", 1)[1] if "\n" in section else ""
