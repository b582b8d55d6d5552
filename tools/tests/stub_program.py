#!/usr/bin/env -S python3 -I -S
"""Stands for penne-nodes in the tests: any token but EndOfSource is an expression of its own, and there are no types.

The environment variable STUB names a fault that it shall have.
"""

import os
import signal
import sys

sys.path.insert(0, os.path.dirname(os.path.dirname(os.path.abspath(__file__))))
sys.dont_write_bytecode = True

import penne_files

END, LITERAL_NODE = 0, 27


def answer(data):
    known = penne_files.foretold(data)
    if known is not None:
        return known + "\n"
    cursor = int.from_bytes(data[4:8], "little")
    expects = 20 if data[8] else 21
    if data[8] == 0 and data[12 + cursor] != END:
        return f"ok 0 {cursor + 1} 1\n0 {LITERAL_NODE} {cursor}\n"
    return f"no {expects} {cursor} {cursor} {cursor + 1} 0\n"


def main():
    fault = os.environ.get("STUB")
    if fault == "hasty":
        return os.write(1, b"bad file\n")
    text = answer(sys.stdin.buffer.read())
    if fault == "signal" and text.startswith("ok"):
        os.kill(os.getpid(), signal.SIGSEGV)
    if fault == "errors" and text.startswith("bad"):
        os.write(2, b"a bad file\n")
    if fault == "count":
        text = text.replace(" 1\n", " 2\n")
    if fault == "kind":
        text = text.replace(f"0 {LITERAL_NODE} ", "0 64 ")
    if fault == "number":
        text = text.replace("no 2", "no 3")
    return os.write(1, text.encode())


main()
