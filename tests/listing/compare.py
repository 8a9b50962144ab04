#!/usr/bin/env python3
# Runs the built program on captures and compares what it prints with the independent reference: the examples, a pipe that delivers a few
# bytes at a time, and captures from a seed. `compare.py COUNT [SEED]`
import concurrent.futures
import glob
import os
import subprocess
import sys
import time

from generate import captures
from reference import listing

ROOT = os.path.join(os.path.dirname(os.path.abspath(__file__)), "..", "..")
COMMAND = [os.path.join(ROOT, "crates", "list", "out", "list")]


def run(capture):
    return subprocess.run(COMMAND, input=capture, stdout=subprocess.PIPE, timeout=120).stdout.decode("ascii")


def run_slowly(capture):
    """Three bytes at a time, with a pause after each."""
    process = subprocess.Popen(COMMAND, stdin=subprocess.PIPE, stdout=subprocess.PIPE)
    for i in range(0, len(capture), 3):
        process.stdin.write(capture[i:i + 3])
        process.stdin.flush()
        time.sleep(0.002)
    return process.communicate()[0].decode("ascii")


def compare(capture, printed):
    if printed == listing(capture):
        return printed.count("\n")
    os.makedirs(os.path.join(ROOT, "target"), exist_ok=True)
    with open(os.path.join(ROOT, "target", "failed.capture"), "wb") as file:
        file.write(capture)
    sys.exit("listing differs; the capture is target/failed.capture")


def main(count, seed):
    if not os.access(COMMAND[0], os.X_OK):
        sys.exit("listing: there is no crates/list/out/list: rt ci builds it, and so does list.sh")
    for name in sorted(glob.glob(os.path.join(ROOT, "examples", "captures", "*.capture"))):
        with open(name, "rb") as file, open(name.replace(".capture", ".listing")) as expected:
            capture = file.read()
            if run(capture) != expected.read():
                sys.exit("the listing of %s differs" % name)
    cases = list(captures(seed, count))
    slow = next(c for c in cases if 200 < len(c) < 1000)
    compare(slow, run_slowly(slow))
    with concurrent.futures.ThreadPoolExecutor(2) as pool:
        lines = sum(compare(c, printed) for c, printed in zip(cases, pool.map(run, cases)))
    print("listing: %d captures, %d bytes, %d lines, as the reference has them" % (len(cases), sum(map(len, cases)), lines))


if __name__ == "__main__":
    main(int(sys.argv[1]), int(sys.argv[2]) if len(sys.argv) > 2 else 20)
