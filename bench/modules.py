#!/usr/bin/env python3
"""Lists the modules that took a check longest: bench/modules.py DIR [COUNT].

DIR is what the check was given as `--incremental DIR`, and was empty before; the check ran with `--jobs 1`. A module's
file is written when it is checked, so the time since the file before it is the module's. Prints seconds, the size of the
file in KiB and the module.
"""
import os
import sys

SUFFIX = ".oantt"


def files(top):
    """The time, the size and the module of each file, by time."""
    found = []
    for folder, _, names in os.walk(top):
        if os.path.basename(folder) == "records":
            continue
        for name in names:
            if name.endswith(SUFFIX):
                told = os.stat(os.path.join(folder, name))
                found.append((told.st_mtime, told.st_size, name[: -len(SUFFIX)]))
    return sorted(found)


def main():
    if len(sys.argv) not in (2, 3):
        sys.exit(__doc__)
    count = int(sys.argv[2]) if len(sys.argv) == 3 else 30
    found = files(sys.argv[1])
    taken = [(now[0] - before[0], now[1], now[2]) for before, now in zip(found, found[1:])]
    for seconds, size, module in sorted(taken, reverse=True)[:count]:
        print(f"{seconds:7.1f} {size // 1024:7d} {module}")


if __name__ == "__main__":
    main()
