"""The time of a look by `frames` and by the solver."""

from collections.abc import Callable
from pathlib import Path
from statistics import mean, median

import service
from comparison import Peer, Tally
from solvers import cpu_time_of
from standard import Sheet

LOOKS = 300_000  # in one run of frames
RUNS = 3


def seconds_of_frames(frames: Path, sheets: list[Sheet], looks: Callable[[Sheet], list[bytes]], stream: Path) -> float:
    """CPU time of a look: a run with each sheet's looks many times over, less a run without looks, over the looks."""
    repeats = -(-LOOKS // sum(len(looks(s)) for s in sheets))

    def seconds(times: int) -> float:
        stream.write_bytes(b"".join(b"".join(service.fields_of(s) + looks(s) * times) for s in sheets))
        with stream.open("rb") as fields:
            used, failed = cpu_time_of([str(frames)], fields.fileno())
        if failed:
            raise service.Unexpected(f"frames failed: {failed}")
        return used

    used = median(seconds(repeats) for _ in range(RUNS)) - median(seconds(0) for _ in range(RUNS))
    return used / (repeats * sum(len(looks(s)) for s in sheets))


def report_times(frames: Path, sheets: list[Sheet], tally: Tally, peer: Peer) -> None:
    stream, start = peer.folder / "stream", mean(tally.starts)
    print("CPU time of a look in microseconds; in brackets without the solver's start, by a program of one variable:")
    extremes = seconds_of_frames(frames, sheets, lambda s: [service.extremes_field(s, j) for j in range(3)], stream)
    print_ratio("extremes, two programs", extremes, 2 * mean(tally.extremes), 2 * start, peer.solver.name)
    utilisations = seconds_of_frames(frames, sheets, lambda s: [service.utilisation_field(s)], stream)
    print_ratio("utilisation, one program", utilisations, mean(tally.utilisations), start, peer.solver.name)


def print_ratio(look: str, frames: float, whole: float, start: float, solver: str) -> None:
    solving = whole - start
    times = f"frames {frames * 1e6:.2f}, {solver} {whole * 1e6:,.0f} ({solving * 1e6:,.0f})"
    print(f"  {look}: {times}; ratio {whole / frames:,.0f} ({solving / frames:,.0f})")
