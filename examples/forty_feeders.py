#!/usr/bin/env python3
"""A station of 41 bays and 243 switches, with almost nothing known.

    examples/forty_feeders.py [PROGRAM]

`interlock make 40 station` draws a double busbar with a coupler and 40 feeders. Two runs on it are compared with what was
worked by hand:

- `check` with 159 positions unknown: the first feeder's busbar disconnectors may open and close, since its own breaker is
  off. Where QB1 is open, n1 is without load; where it is closed, it bonds n1 with the other busbar through the coupler.
- `node` of the first feeder, which hears nobody and knows two of its own positions: it asks all forty other bays, and at
  the tick grants the opening of QB1, for the same reason, whatever the 241 unknown switches are.

The status is 0 where both are so.
"""
import pathlib
import subprocess
import sys
import tempfile

TOP = pathlib.Path(__file__).resolve().parents[1]
BAY = "S/V1/Q1"


def program():
    path = pathlib.Path(sys.argv[1]) if len(sys.argv) > 1 else TOP / "crates/interlock/out/interlock"
    if not path.exists():
        sys.exit("the program is not built: ./interlock --prove")
    return str(path)


def written(words, lines=""):
    return subprocess.run([program(), *words], input=lines, capture_output=True, text=True, check=True).stdout


def unknown(text):
    """The positions with each `on` of a feeder lost, and the first feeder's breaker off."""
    rows = [row.split(",") for row in text.splitlines()]
    rows = [(path, "lost" if word == "on" and "/K0/" not in path else word) for path, word in rows]
    return "".join(f"{path},{'off' if path == f'{BAY}/QA1' else word}\n" for path, word in rows)


def main():
    with tempfile.TemporaryDirectory() as folder:
        station, positions = pathlib.Path(folder, "station.ssd"), pathlib.Path(folder, "positions.csv")
        station.write_text(written(["make", "40", "station"]))
        positions.write_text(unknown(written(["make", "40", "positions"])))
        answer = written(["check", str(station), str(positions)]).splitlines()
        lines = [f"sense off {BAY}/QB2", f"sense off {BAY}/QA1", f"command open {BAY}/QB1", "tick"]
        node = written(["node", str(station), BAY], "\n".join(lines) + "\n").splitlines()
    released = all(f"1 1 - - {BAY}/{switch}" in answer for switch in ("QB1", "QB2"))
    others = [bay for bay in range(2, 43) if bay != 3]
    wanted = [
        "keep 000000010000000000000000000000000000",
        "collecting 1",
        *(f"send 0103{bay:02x}000000010000" for bay in others),
        "keep 000000010000000000000100000001000300",
        f"granted 1 open {BAY}/QB1",
    ]
    print(f"check with 159 positions unknown: {'as worked by hand' if released else 'not as worked by hand'}")
    print(f"node that hears nobody: {'as worked by hand' if node == wanted else 'not as worked by hand'}")
    return 0 if released and node == wanted else 1


if __name__ == "__main__":
    sys.exit(main())
