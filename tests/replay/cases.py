#!/usr/bin/env python3
"""Pipes recorded cases through the replay program and compares byte for byte: cases.py PROGRAM FILE..

A case is the lengths of input and output, 4 bytes each, the input and the output. Every case goes in at once, and every
tenth once more in small pieces.
"""
import struct
import subprocess
import sys
import time

PIECE = 7


def cases(path):
    with open(path, "rb") as file:
        data = file.read()
    at = 0
    while at < len(data):
        given, wanted = struct.unpack_from("<II", data, at)
        at += 8
        yield data[at:at + given], data[at + given:at + given + wanted]
        at += given + wanted


def at_once(program, given):
    return subprocess.run([program], input=given, stdout=subprocess.PIPE, timeout=60, check=True).stdout


def in_pieces(program, given):
    with subprocess.Popen([program], stdin=subprocess.PIPE, stdout=subprocess.PIPE, bufsize=0) as running:
        first = given[:PIECE * 40]
        for at in range(0, len(first), PIECE):
            running.stdin.write(first[at:at + PIECE])
            if at % (PIECE * 8) == 0:
                time.sleep(0.001)  # so that reads end within records
        try:
            running.stdin.write(given[len(first):])
            running.stdin.close()
        except BrokenPipeError:
            pass  # the program stops reading where no more can be accepted
        wrote = running.stdout.read()
    if running.returncode != 0:
        raise subprocess.CalledProcessError(running.returncode, program)
    return wrote


def main():
    program, files = sys.argv[1], sys.argv[2:]
    for path in files:
        number = 0
        for number, (given, wanted) in enumerate(cases(path), 1):
            for way in [at_once] + ([in_pieces] if number % 10 == 1 else []):
                if way(program, given) != wanted:
                    sys.exit(f"{path}: case {number}, {way.__name__}: the program writes something else")
        if number == 0:
            sys.exit(f"{path}: there is no case in it")
        print(f"{path}: the replay program writes what is recorded, {number} cases")


if __name__ == "__main__":
    main()
