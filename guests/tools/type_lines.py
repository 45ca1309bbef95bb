#!/usr/bin/env python3
"""Runs a program, types the lines of standard input into it, each once the program has written the prompt, and writes what
it writes. The program's input ends after the last line; its status is the answer. One that waits for no line any more is
ended after TIMEOUT seconds without a word."""
import argparse
import os
import select
import subprocess
import sys

TIMEOUT = 300


def type_lines(program, prompt, lines, out):
    """The status of the program, into which the lines were typed."""
    waiting, tail = list(lines), b''
    with subprocess.Popen(program, stdin=subprocess.PIPE, stdout=subprocess.PIPE) as process:
        while select.select([process.stdout], [], [], TIMEOUT)[0]:
            piece = os.read(process.stdout.fileno(), 65536)
            if not piece:
                break
            out.write(piece)
            out.flush()
            tail = (tail + piece)[-len(prompt):]
            if waiting and tail == prompt:
                process.stdin.write(waiting.pop(0) + b'\n')
                process.stdin.flush()
                if not waiting:
                    process.stdin.close()
        else:
            process.kill()
        return process.wait()


def main():
    words = argparse.ArgumentParser(description=__doc__)
    words.add_argument('prompt')
    words.add_argument('program', nargs=argparse.REMAINDER)
    words = words.parse_args()
    lines = sys.stdin.buffer.read().splitlines()
    sys.exit(type_lines(words.program, words.prompt.encode(), lines, sys.stdout.buffer))


if __name__ == '__main__':
    main()
