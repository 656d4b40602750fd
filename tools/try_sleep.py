#!/usr/bin/env python3
"""Looks whether a thread that sleeps leaves the processor to others, as one that looks again and again doesn't. It
needs Python 3.9 or later, the system's C compiler, and Linux with glibc.

    tools/try_sleep.py PROGRAM ..

Each PROGRAM is a lockrun. Of the three threads of a script the last begins at once, and waits on a condition with an sx
lock held; half a second later the first begins, and sleeps for that lock; and half a second later the second wakes the
last. The line of a program has its status, how long the run took, its processor time, and by how many voluntary
switches its threads went to sleep. Where the text isn't the one that such a run has, the run took less than a second,
or its processor time is more than a twentieth of that, the line says so, and the status is 1.
"""
import os
import resource
import subprocess
import sys
import tempfile
import time
from pathlib import Path

EACH = 500
SCRIPT = b"""lockrun 1
sx s j
mutex m k
cond c m
thread first 100
xlock s
xunlock s
end
thread second 100
lock m
signal c
unlock m
end
thread last 100
xlock s
lock m
wait c
unlock m
xunlock s
end
done
"""
OF_THREADS = {
    b"first": [b"xlock s", b"xunlock s"],
    b"second": [b"lock m", b"signal c last", b"unlock m"],
    b"last": [b"xlock s", b"lock m", b"wait c", b"woke c", b"unlock m", b"xunlock s"],
}


def is_right(text):
    """Whether each thread says what it is to say, and the first has the lock behind the last."""
    entries = [line.split(b" ", 2)[1:] for line in text.splitlines() if line[:1].isdigit()]
    said = {name: [what for who, what in entries if who == name] for name in OF_THREADS}
    locks = [who for who, what in entries if what == b"xlock s"]
    return said == OF_THREADS and locks == [b"last", b"first"] and text.endswith(b"\nok\n")


def try_program(program, library):
    before, begun = resource.getrusage(resource.RUSAGE_CHILDREN), time.monotonic()
    words = dict(os.environ, LD_PRELOAD=library, EACH=str(EACH))
    ended = subprocess.run([program, "run"], input=SCRIPT, stdout=subprocess.PIPE, env=words, timeout=60)
    took, after = time.monotonic() - begun, resource.getrusage(resource.RUSAGE_CHILDREN)
    used = after.ru_utime + after.ru_stime - before.ru_utime - before.ru_stime
    right = ended.returncode == 0 and is_right(ended.stdout)
    asleep = took >= 2 * EACH / 1000 and used <= took / 20
    print(f"{program}: status {ended.returncode} took {took:.3f} s processor time {used:.3f} s"
          f" voluntary switches {after.ru_nvcsw - before.ru_nvcsw}"
          f"{'' if right else ' ANOTHER TEXT'}{'' if asleep else ' DID NOT SLEEP'}", flush=True)
    return right and asleep


def main():
    if len(sys.argv) < 2:
        sys.exit(__doc__)
    with tempfile.TemporaryDirectory() as room:
        library = f"{room}/late.so"
        source = Path(__file__).with_name("start_late.c")
        subprocess.run([os.environ.get("CC", "cc"), "-O2", "-shared", "-fPIC", "-o", library, source, "-ldl"],
                       check=True)
        right = [try_program(os.path.realpath(program), library) for program in sys.argv[1:]]
    return 0 if all(right) else 1


if __name__ == "__main__":
    sys.exit(main())
