#!/usr/bin/env python3
"""run.py [--step K] PROGRAM WORD..: calls PROGRAM with these words once for each allocation that it makes (or for
each K-th), and lets that one fail. Right is a call that ends with 6 after a front of what it writes else, or one that
ends and writes as ever. Tells how many ended how, and ends with 1 where one ended otherwise. Needs cc and glibc; call it
in a project's folder."""
import collections
import os
import subprocess
import sys
import tempfile

MEMORY = 6


def main():
    words = sys.argv[1:]
    step = 1
    if words[:1] == ["--step"]:
        step = int(words[1])
        words = words[2:]
    if not words:
        sys.exit(__doc__)
    words[0] = os.path.abspath(words[0])
    with tempfile.TemporaryDirectory() as folder:
        shim = os.path.join(folder, "fail.so")
        source = os.path.join(os.path.dirname(os.path.abspath(__file__)), "fail.c")
        subprocess.run(["cc", "-shared", "-fPIC", "-O1", "-o", shim, source], check=True)

        def call(**more):
            env = {**os.environ, "LD_PRELOAD": shim, **more}
            done = subprocess.run(words, env=env, stdin=subprocess.DEVNULL, capture_output=True)
            return done.returncode, done.stdout, done.stderr

        status, whole, told = call(FAILTELL="1")
        total = int(told.split()[-1])
        ends = collections.Counter()
        wrong = []
        for number in range(1, total + 1, step):
            ended, written, _ = call(FAILN=str(number))
            if (ended, written) == (status, whole):
                ends["as ever"] += 1
            elif ended == MEMORY and whole.startswith(written):
                ends["out of memory, after a part" if written else "out of memory, nothing written"] += 1
            else:
                ends["otherwise"] += 1
                wrong.append(f"allocation {number}: status {ended}, {len(written)} bytes")
        print(f"{total} allocations, status {status}:", ", ".join(f"{n} {end}" for end, n in ends.items()))
        for line in wrong[:20]:
            print(line)
        sys.exit(1 if wrong else 0)


main()
