"""Compares the answers of `frames` with a solver's optimum, in exact integers."""

from collections.abc import Callable
from dataclasses import dataclass, field
from pathlib import Path

from program import Program, combination_of, extreme_program, lp_text, tolerance, utilisation_program
from service import Answers, Extreme, Utilisation
from solvers import Solver, solve
from standard import Combination, Sheet, factored_effects, inadmissible, utilisation

EMPTY_PROGRAM = "Maximize\nobj: x0\nSubject To\nc0: x0 <= 1\nBinaries\nx0\nEnd\n"


@dataclass(frozen=True)
class Peer:
    """The solver, and a folder for its files."""

    solver: Solver
    folder: Path

    def optimum(self, program: Program) -> tuple[Combination, float]:
        """A governing combination by the solver, and the CPU time of its process."""
        values, seconds = solve(self.solver, lp_text(program), len(program.variables), self.folder)
        return combination_of(program, values), seconds

    def start(self) -> float:
        """CPU time of the solver's process on a program of one variable."""
        return solve(self.solver, EMPTY_PROGRAM, 1, self.folder)[1]


@dataclass
class Tally:
    differences: list[str] = field(default_factory=list)
    governing: list[Combination] = field(default_factory=list)
    verdicts: list[int] = field(default_factory=list)
    with_tolerance: int = 0  # programs whose tolerance is not 0
    below: int = 0  # of these, those where the solver ended below frames
    extremes: list[float] = field(default_factory=list)  # CPU times of the solver, in seconds
    utilisations: list[float] = field(default_factory=list)
    starts: list[float] = field(default_factory=list)


def compare_sheet(index: int, sheet: Sheet, answers: Answers, peer: Peer, tally: Tally) -> None:
    tally.starts.append(peer.start())
    for component, name in enumerate(("N", "My", "Mz")):
        for extreme, sign in zip(answers.extremes[component], (1, -1)):
            wrong = compare_extreme(sheet, component, sign, extreme, peer, tally)
            if wrong:
                tally.differences.append(f"sheet {index}, {'maximum' if sign == 1 else 'minimum'} of {name}: {wrong}")
    wrong = compare_utilisation(sheet, answers.utilisation, peer, tally)
    if wrong:
        tally.differences.append(f"sheet {index}, utilisation: {wrong}")


def compare_extreme(sheet: Sheet, component: int, sign: int, told: Extreme, peer: Peer, tally: Tally) -> str | None:
    program = extreme_program(sheet, component, sign)
    combination, seconds = peer.optimum(program)
    tally.extremes.append(seconds)
    tally.governing.append(told.combination)

    def number(c: Combination) -> int:
        return factored_effects(sheet, c)[component]

    wrong = not_reached(sheet, told.combination, number, told.number)
    return wrong or against(program, sign, told.number, combination, number(combination), tally)


def compare_utilisation(sheet: Sheet, told: Utilisation, peer: Peer, tally: Tally) -> str | None:
    program = utilisation_program(sheet)
    combination, seconds = peer.optimum(program)
    tally.utilisations.append(seconds)
    tally.governing.append(told.combination)
    tally.verdicts.append(told.verdict)
    fraction = told.numerator, told.denominator
    wrong = not_reached(sheet, told.combination, lambda c: utilisation(sheet, c), fraction)
    if wrong is None and told.verdict != int(told.numerator <= told.denominator):
        wrong = f"verdict {told.verdict} for {told.numerator} over {told.denominator}"
    return wrong or against(program, 1, told.numerator, combination, utilisation(sheet, combination)[0], tally)


def not_reached(sheet: Sheet, named: Combination, number: Callable[[Combination], object], told: object) -> str | None:
    """Why the combination that frames names does not show its number, or None if it does."""
    broken = inadmissible(sheet, named)
    if broken:
        return f"the named combination is not admissible: {broken}"
    reached = number(named)
    return None if reached == told else f"frames says {told}, its combination reaches {reached}"


def against(program: Program, sign: int, frames: int, found: Combination, solver: int, tally: Tally) -> str | None:
    """Compares exact numbers, the solver's being recomputed from the combination it found. The sign is -1 for a minimum.

    If the solver's governs over that of frames, it is a difference. If that of frames governs, the solver missed the optimum, since
    the combination of frames has been found admissible and reaching its number: a difference too, unless within the tolerance.
    """
    broken = inadmissible(program.sheet, found)
    if broken:
        return f"the solver's combination is not admissible: {broken}"
    short, allowed = sign * (frames - solver), tolerance(program)
    tally.with_tolerance += allowed > 0
    tally.below += 0 < short <= allowed
    return None if 0 <= short <= allowed else f"frames {frames}, solver {solver} (row {found.row})"
