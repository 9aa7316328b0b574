#!/usr/bin/env python3
"""cuts.py DESK.. < SCRIPT: the same script given to a desk whole, byte by byte and cut at random must give the same output.
DESK is the command that runs it. The cuts come from a fixed seed."""
import random, subprocess, sys, threading

script = sys.stdin.buffer.read()
command = sys.argv[1:]


def fed(pieces):
    run = subprocess.Popen(command, stdin=subprocess.PIPE, stdout=subprocess.PIPE, bufsize=0)
    out = []
    reader = threading.Thread(target=lambda: out.append(run.stdout.read()))
    reader.start()
    for piece in pieces:
        run.stdin.write(piece)
    run.stdin.close()
    reader.join()
    run.wait()
    return out[0]


def cut(seed, longest):
    dice, at = random.Random(seed), 0
    while at < len(script):
        n = dice.randint(1, longest)
        yield script[at:at + n]
        at += n


whole = fed([script])
ways = [('byte by byte', (script[i:i + 1] for i in range(len(script))))]
ways += [(f'cut at random, up to {longest} bytes', cut(longest, longest)) for longest in (3, 50, 700, 9000, 70000)]
for name, pieces in ways:
    if fed(pieces) != whole:
        print(f'{name}: another output')
        sys.exit(1)
    print(f'{name}: the same output')
