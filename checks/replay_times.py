#!/usr/bin/env python3
"""The processor time of a replay, the least of 20 runs each, and how it grows with ticks, hosts and starts; each run's text is held to checks/replay.py.

  ./loom replay incidents/case.schedule && python3 checks/replay_times.py
"""
import os
import subprocess
import sys
import tempfile
from pathlib import Path

ROOT = Path(__file__).parent.parent
sys.path.insert(0, str(ROOT / "incidents"))
from make import CUBE, both_ways, largest, order, schedule  # noqa: E402
from replay import report  # noqa: E402

RUNS = 20
GROWING = ((8, 0, 1024), (8, 0, 2048), (8, 0, 4096), (4, 0, 4096), (2, 0, 4096), (8, 4, 4096), (8, 8, 4096), (8, 16, 4096), (8, 16, 1024), (2, 16, 4096))
LARGEST = dict(hosts=8, links=CUBE, pi=1, big_l=1, delay=64, skew=64)


def part(hosts):
    """The cube, or a square or an edge of it, with no faults planned, so that planning is short."""
    return dict(hosts=hosts, links=[link for link in CUBE if link[1] < hosts], delay=64, skew=64)


def even(network, starts, end):
    """So many starts spread over the run, with a fate for every copy."""
    ways = both_ways(network["links"])
    return schedule(**network, end=end, starts=[(end * k // 16, 5 * k % network["hosts"], order(k)) for k in range(starts)],
                    fates=[(k, a, b, 1 + (11 * k + 7 * a + 5 * b) % 64) for k in range(starts) for a, b in ways])


def once(data, text):
    """Processor time of one run, in microseconds."""
    with tempfile.TemporaryFile() as file, tempfile.TemporaryFile() as out:
        file.write(data)
        file.seek(0)
        run = subprocess.Popen([ROOT / "target/bin/replay"], stdin=file, stdout=out)
        _, run.returncode, used = os.wait4(run.pid, 0)
        out.seek(0)
        assert run.returncode == 0 and out.read().decode() == text, "the text is not that of checks/replay.py"
    return (used.ru_utime + used.ru_stime) * 1e6


def least(files):
    """The least time of each file. Each round runs all of them, so that a busy moment of the machine falls on none alone."""
    texts = [report(data) for data in files]
    rounds = [[once(data, text) for data, text in zip(files, texts)] for _ in range(RUNS)]
    return [min(times) for times in zip(*rounds)]


def rows():
    """What a row is called, its schedule, the same network's with end tick 0, and the ticks that the two differ by."""
    yield "`largest`: 8 hosts, 16 starts, end 4,096", largest(), even(LARGEST, 0, 0), 4096
    for hosts, starts, end in GROWING:
        yield f"{hosts} hosts, {starts} starts, end {end:,}", even(part(hosts), starts, end), even(part(hosts), 0, 0), end


if __name__ == "__main__":
    names, wholes, befores, ticks = zip(*rows())
    alone, *times = least([b"".join(records) for records in ([], *wholes, *befores)])
    print(f"the process alone, on no bytes: {alone / 1000:.2f} ms\n")
    print("| Run | ms | of it before the first tick | µs for each tick |\n|---|---|---|---|")
    for name, whole, before, count in zip(names, times, times[len(names):], ticks):
        print(f"| {name} | {whole / 1000:.2f} | {before / 1000:.2f} | {(whole - before) / count:.2f} |")
