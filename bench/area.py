#!/usr/bin/env python3
"""What the object area costs, beside a C array and beside the clock.

It builds the program bench_area, writes and builds the same loop in C in a temporary folder, and runs
both in turn. It prints the times and ends with status 1 where a bound of docs/DECISIONS.md, "The
object area", is passed: 10^8 reads and writes take at most 1.5 times what they take over a C array,
and an area of the greatest size with its first ten words is made in under a millisecond.
"""
import os
import shutil
import subprocess
import sys
import tempfile
import time

ROOT = os.path.dirname(os.path.dirname(os.path.abspath(__file__)))
CRATE = os.path.join(ROOT, "crates", "bench_area")
ACCESSES = 10**8
AREAS = 1000
RUNS = 15

BASELINE = r"""
#include <inttypes.h>
#include <stdint.h>
#include <stdio.h>
#include <stdlib.h>

int main(int argc, char **argv) {
    uint32_t count = (uint32_t)strtoul(argv[1], 0, 10);
    uint64_t *words = calloc(4097, 8);
    uint64_t sum = 1;
    for (uint32_t i = 0; i < count; i++) {
        uint32_t at = 1 + i % 4096;
        sum += words[at];
        words[at] = sum;
    }
    printf("%" PRIu64 "\n", sum);
    free(words);
    return 0;
}
"""


def timed(command):
    start = time.perf_counter()
    output = subprocess.run(command, check=True, stdout=subprocess.PIPE, text=True).stdout
    return time.perf_counter() - start, output.split()


def best(*commands):
    """The shortest run of each command, in turn, so that a busy machine slows all alike."""
    rounds = [[timed(command) for command in commands] for _ in range(RUNS)]
    return [min(runs) for runs in zip(*rounds)]


def main():
    built = subprocess.run(["rt", "run"], cwd=CRATE, stdout=subprocess.DEVNULL)
    if built.returncode != 0:
        sys.exit("bench_area was not built")
    program = os.path.join(CRATE, "out", "bench_area")
    with tempfile.TemporaryDirectory() as folder:
        source = os.path.join(folder, "array.c")
        array = os.path.join(folder, "array")
        with open(source, "w") as file:
            file.write(BASELINE)
        compiler = os.environ.get("CC") or shutil.which("clang") or "cc"
        subprocess.run([compiler, "-O2", source, "-o", array], check=True)
        (area_time, area_output), (array_time, array_output) = best(
            [program, str(ACCESSES), "0"], [array, str(ACCESSES)]
        )
    if area_output[0] != array_output[0]:
        sys.exit(f"the sums differ: {area_output[0]} over the area, {array_output[0]} over the array")
    (idle_time, _), (areas_time, _) = best([program, "0", "0"], [program, "0", str(AREAS)])
    ratio = area_time / array_time
    made = max(areas_time - idle_time, 0) / AREAS * 1000
    print(f"{ACCESSES} reads and writes: area {area_time:.3f} s, C array {array_time:.3f} s, ratio {ratio:.2f} (at most 1.5)")
    print(f"an area of 2^25 words and its first 10: {made:.4f} ms (under 1)")
    sys.exit(0 if ratio <= 1.5 and made < 1 else 1)


if __name__ == "__main__":
    main()
