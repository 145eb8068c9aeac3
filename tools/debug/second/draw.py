#!/usr/bin/env python3
"""Draws a record of three processes in a ring, with failures, rounds and restarts, for fuzz.py.

    draw.py SEED > some.record"""
import random
import sys

import world

A0, A1, A2, A7, T0 = 10, 11, 12, 17, 5
# What an event is told that did nothing.
PASSED_OVER = ('not-up', 'not-in', 'no-round', 'no-frame', 'stranger', 'repeat', 'ahead', 'not-waiting', 'unsettled',
               'orphan', 'present')


def addi(rd, rs, i):
    return (i & 0xFFF) << 20 | rs << 15 | rd << 7 | 0x13


def lw(rd, i, rs):
    return (i & 0xFFF) << 20 | rs << 15 | 2 << 12 | rd << 7 | 3


def sw(r2, i, rs):
    return (i >> 5 & 127) << 25 | r2 << 20 | rs << 15 | 2 << 12 | (i & 31) << 7 | 0x23


def jal(off):
    o = off & 0x1FFFFF
    return (o >> 20 & 1) << 31 | (o >> 1 & 0x3FF) << 21 | (o >> 11 & 1) << 20 | (o >> 12 & 255) << 12 | 0x6F


def send(to):
    return [addi(A7, 0, 1), addi(A0, 0, to), addi(A1, 0, 96), addi(A2, 0, 4), 0x73]


def receive():
    return [addi(A7, 0, 2), addi(A0, 0, 96), addi(A1, 0, 4), 0x73]


def words(leads, to):
    """Receives, adds 1, sends on, again and again; one that leads sends first."""
    body = receive() + [lw(T0, 96, 0), addi(T0, T0, 1), sw(T0, 96, 0)] + send(to)
    return (send(to) if leads else []) + body + [jal(-4 * len(body))]


def event(rng, n, frames):
    x, p = rng.random(), rng.randrange(n)
    if x < 0.35:
        return ['run', p, rng.randrange(1, 25)]
    if x < 0.62:
        return ['give', p, rng.randrange(max(1, frames))]
    for least, word in ((0.68, 'flush'), (0.72, 'checkpoint'), (0.76, 'fail'), (0.82, 'join'), (0.93, 'resume'), (0.95, 'resend')):
        if x < least:
            return [word, p]
    return ['restart']


def record(seed, n=3, count=120):
    rng = random.Random(seed)
    lines = []
    for i in range(n):
        code = words(i == 0 or rng.random() < 0.3, (i + 1) % n)
        lines.append(f'program g{i} 128 ' + ' '.join('%08x' % w for w in code))
    lines += [f'proc p{i} g{i}' for i in range(n)]
    _, images, _ = world.read('\n'.join(lines))
    cluster, events = world.World(images), []
    while len(events) < count:
        one = event(rng, n, len(cluster.frames))
        if cluster.play(list(one)) in PASSED_OVER and rng.random() < 0.95:
            continue
        events.append(' '.join(map(str, one)))
    return '\n'.join(lines + events) + '\n'


if __name__ == '__main__':
    sys.stdout.write(record(int(sys.argv[1])))
