"""Runs GLPK or CBC on a 0/1 program and reads the values of its variables."""

import resource
import shutil
import subprocess
from collections.abc import Callable
from dataclasses import dataclass
from pathlib import Path


class SolverFailed(Exception):
    pass


@dataclass(frozen=True)
class Solver:
    name: str
    executable: str
    package: str
    arguments: Callable[[Path, Path], list[str]]
    values: Callable[[str, int], list[int]]


def cpu_time_of(command: list[str], stdin: int = subprocess.DEVNULL) -> tuple[float, str]:
    """Runs one child process: its CPU time in seconds, and its message if it failed.

    User and system time together: for a process of a few milliseconds the kernel knows the sum well, its two parts roughly.
    """
    before = resource.getrusage(resource.RUSAGE_CHILDREN)
    ran = subprocess.run(command, stdin=stdin, stdout=subprocess.DEVNULL, stderr=subprocess.PIPE)
    after = resource.getrusage(resource.RUSAGE_CHILDREN)
    failed = (ran.stderr.decode(errors="replace") or f"status {ran.returncode}") if ran.returncode else ""
    return after.ru_utime - before.ru_utime + after.ru_stime - before.ru_stime, failed


def solve(solver: Solver, text: str, variables: int, folder: Path) -> tuple[list[int], float]:
    """The values of x0, x1, ... in an optimum, and the CPU time of the solver's process."""
    lp, solution = folder / "look.lp", folder / "look.sol"
    lp.write_text(text)
    solution.unlink(missing_ok=True)
    seconds, failed = cpu_time_of([solver.executable, *solver.arguments(lp, solution)])
    if failed or not solution.exists():
        raise SolverFailed(f"{solver.name} failed: {failed or 'no solution written'}")
    return solver.values(solution.read_text(), variables), seconds


def binary(text: str) -> int:
    value = float(text)
    if min(abs(value), abs(value - 1)) > 1e-6:
        raise SolverFailed(f"a binary variable has the value {text}")
    return round(value)


def glpk_values(solution: str, variables: int) -> list[int]:
    """GLPK writes `s mip ROWS COLUMNS STATUS OBJECTIVE` (o is optimal) and `j COLUMN VALUE`, columns from 1."""
    lines = [line.split() for line in solution.splitlines()]
    if not any(words[:2] == ["s", "mip"] and words[4] == "o" for words in lines):
        raise SolverFailed("glpsol found no optimum")
    values = {int(words[1]) - 1: binary(words[2]) for words in lines if words[0] == "j"}
    return [values[i] for i in range(variables)]


def cbc_values(solution: str, variables: int) -> list[int]:
    """CBC writes a line that begins with `Optimal`, then `NUMBER NAME VALUE COST` for the variables other than 0."""
    status, *lines = solution.splitlines()
    if not status.startswith("Optimal"):
        raise SolverFailed(f"cbc found no optimum: {status}")
    words = [line.split() for line in lines]
    values = {int(w[1].removeprefix("x")): binary(w[2]) for w in words}
    return [values.get(i, 0) for i in range(variables)]


SOLVERS = (
    Solver("glpk", "glpsol", "glpk-utils", lambda lp, out: ["--lp", str(lp), "--write", str(out)], glpk_values),
    Solver("cbc", "cbc", "coinor-cbc", lambda lp, out: [str(lp), "solve", "solution", str(out)], cbc_values),
)


def installed(name: str | None) -> Solver | None:
    """The solver of that name, or the first of all, that is on the path."""
    for solver in SOLVERS:
        if name in (None, solver.name) and shutil.which(solver.executable):
            return solver
    return None
