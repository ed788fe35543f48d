#!/usr/bin/env python3
"""Turns samples on standard input into the lines that LinuxCNC's halstreamer reads: a line for each sample, a field for each bit."""
import sys

LINES = [" ".join(str(sample >> bit & 1) for bit in range(8)) + "\n" for sample in range(256)]
while piece := sys.stdin.buffer.read1(4096):
    sys.stdout.write("".join(LINES[sample] for sample in piece))
    sys.stdout.flush()
