"""Runs altroute for the tools: the program that ALTROUTE names, or ./altroute, which proves and builds it if need be."""
import os
import subprocess
import sys

TOP = os.path.dirname(os.path.dirname(os.path.abspath(__file__)))


def run_program(words, given):
    """Returns the status and what is written for these words and this input. What it says beside that isn't caught."""
    program = os.environ.get("ALTROUTE") or f"{TOP}/altroute"
    try:
        ran = subprocess.run([program, *words], input=given, stdout=subprocess.PIPE)
    except OSError as error:
        print(f"{os.path.basename(sys.argv[0])}: {program}: {error.strerror}", file=sys.stderr)
        sys.exit(127)
    return (ran.returncode if ran.returncode >= 0 else 128 - ran.returncode), ran.stdout
