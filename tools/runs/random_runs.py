"""Compares a program with what is known of numbered random inputs, which are the same on each run."""
import argparse
import os
import tempfile

ROOT = os.path.abspath(f"{__file__}/../../..")


def compare(what, make, fault_of):
    """Makes an input of each number, and prints a line for each with which the program, the built lv or the one that is named, is at fault.
    `fault_of` gets the program's path, the input and an empty folder, and answers a text or None."""
    parser = argparse.ArgumentParser(description=f"Compares lv over random {what} with what they mean.")
    parser.add_argument("program", nargs="?", default=f"{ROOT}/crates/lv/out/lv")
    parser.add_argument("--first", type=int, default=0, help="the number of the first one")
    parser.add_argument("--count", type=int, default=400, help="how many there are")
    words = parser.parse_args()
    program, failed = os.path.abspath(words.program), 0
    for number in range(words.first, words.first + words.count):
        with tempfile.TemporaryDirectory(prefix="lv-random-") as room:
            fault = fault_of(program, make(number), room)
        if fault:
            failed += 1
            print(f"{what}: FAILED, {number}: {fault}")
    print(f"{what}: {words.count - failed} of {words.count} hold")
    return 1 if failed or not words.count else 0
