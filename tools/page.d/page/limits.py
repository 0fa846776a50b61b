"""Runs a program under limits: python3 limits.py SECONDS MEMORY FILE PROGRAM WORD..

The program has SECONDS of processor time, MEMORY megabytes of address space, writes no file of more than FILE megabytes, and leaves no
core. This is a program of its own, since limits that are set between fork and exec are not safe where threads run.
"""
import os
import resource
import sys

EXIT_NOT_THERE = 127


def main() -> int:
    seconds, memory, size = (int(word) for word in sys.argv[1:4])
    resource.setrlimit(resource.RLIMIT_CORE, (0, 0))
    resource.setrlimit(resource.RLIMIT_CPU, (seconds, seconds + 1))
    resource.setrlimit(resource.RLIMIT_FSIZE, (size << 20, size << 20))
    resource.setrlimit(resource.RLIMIT_AS, (memory << 20, memory << 20))
    try:
        os.execv(sys.argv[4], sys.argv[4:])
    except OSError as error:
        print(f"{sys.argv[4]}: {error.strerror}", file=sys.stderr)
    return EXIT_NOT_THERE


if __name__ == "__main__":
    sys.exit(main())
