#!/usr/bin/env python3
"""Random packets to two commands about one process of a record, or all: each answer must be the same.

    fuzz.py COUNT SEED NAME RECORD 'COMMAND' 'COMMAND'       as fuzz.py 1000 1 p2 bank.record 'omlog debug' ./stub.py
    fuzz.py COUNT SEED - RECORD 'COMMAND' 'COMMAND'          as fuzz.py 1000 1 - bank.record 'omlog debug' ./group.py

--process NAME RECORD is put behind each command; for all processes RECORD, behind --elf PROGRAM=PROGRAM.elf for
some of its programs."""
import os
import random
import subprocess
import sys


class Side:
    def __init__(self, command):
        self.p = subprocess.Popen(command.split(), stdin=subprocess.PIPE, stdout=subprocess.PIPE, bufsize=0)
        self.buf = b''
        self.ask('QStartNoAckMode')

    def ask(self, text):
        self.p.stdin.write(('$%s#%02x' % (text, sum(text.encode()) % 256)).encode())
        while True:
            i = self.buf.find(b'$')
            j = self.buf.find(b'#', i)
            if 0 <= i < j and len(self.buf) >= j + 3:
                told, self.buf = self.buf[i + 1:j], self.buf[j + 3:]
                return told.decode('latin-1')
            got = os.read(self.p.stdout.fileno(), 65536)
            if not got:
                raise EOFError(text)
            self.buf += got


def packets(rng, words, events, breaks, watches):
    x = rng.random()
    if x < 0.12 and len(breaks) < 4:
        breaks.append(f'0,{4 * rng.randrange(words):x},4')
        return ['Z' + breaks[-1]]
    if x < 0.2 and breaks:
        return ['z' + breaks.pop(rng.randrange(len(breaks)))]
    if x < 0.26 and len(watches) < 3:
        at = rng.randrange(4 * words + 64) if rng.random() < 0.7 else rng.randrange(0x2000)
        watches.append(f'{rng.choice("234")},{at:x},{rng.choice([1, 2, 4, 8])}')
        return ['Z' + watches[-1]]
    if x < 0.34 and watches:
        return ['z' + watches.pop(rng.randrange(len(watches)))]
    if x < 0.44:
        return ['g', f'm{rng.randrange(0x2000):x},{rng.randrange(0x400):x}', 'm0,800', 'm1800,800']
    if x < 0.47:
        return ['qRcmd,' + b'where'.hex(), '?']
    if x < 0.49:
        return ['qRcmd,' + f'goto {rng.randrange(events + 2)}'.encode().hex()]
    if x < 0.65:
        return ['bs']
    if x < 0.76:
        return ['bc']
    if x < 0.88:
        return ['vCont;s:1;c']
    if x < 0.92:
        low = 4 * rng.randrange(words)
        return [f'vCont;r{low:x},{low + 4 * rng.randrange(1, 9):x}:1;c']
    return ['vCont;c']


def of_group(rng, words, events, count, breaks, watches):
    """The same packets about all processes, each about one of them."""
    p = rng.randrange(1, count + 1)
    x = rng.random()
    if x < 0.2:
        return [rng.choice([f'Hgp{p:x}.1', f'Hgp{p:x}.1', f'Hgp{p:x}.0', 'Hgp0.0', f'Hg{p:x}', f'Hgp{count + 1:x}.1'])]
    if x < 0.26:
        return [rng.choice(['Hc0', 'Hc-1', f'Hcp{p:x}.1', f'Tp{p:x}.1', f'Tp{p:x}.2'])]
    if x < 0.3:
        return [f'qXfer:exec-file:read:{p:x}:{rng.randrange(8):x},{rng.randrange(1, 40):x}', 'qXfer:threads:read::0,1000']
    if x < 0.31:
        return [f'vCont;c:p{p:x}.-1']
    asked = packets(rng, words, events, breaks, watches)
    if asked[0].startswith('vCont;s'):
        return [f'vCont;s:p{p:x}.1;c']
    if asked[0].startswith('vCont;r'):
        return [asked[0].replace(':1;c', f':p{p:x}.1;c')]
    if asked[0] == 'bs' and rng.random() < 0.5:
        return [f'Tp{p:x}.1', 'Hc0', 'bs']
    return asked


def seen(packet, told):
    """What is compared: of `where` how the processes stand, since of events that do nothing to a process each may say on which side it stands."""
    return bytes.fromhex(told).split(b'\n')[1:] if packet.startswith('qRcmd,') else told


def main():
    count, seed, name, record = int(sys.argv[1]), int(sys.argv[2]), sys.argv[3], sys.argv[4]
    lines = [line.split() for line in open(record) if line.strip() and not line.startswith('#')]
    words = max(len(w) - 3 for w in lines if w[0].startswith('program'))
    events = sum(w[0] not in ('program', 'program-m', 'proc') for w in lines)
    rng, breaks, watches = random.Random(seed), [], []
    programs = [it for it in sorted({w[2] for w in lines if w[0] == 'proc'}) if rng.random() < 0.7]
    shown = ' '.join(f'--elf {it}={it}.elf' for it in programs) if name == '-' else f'--process {name}'
    a, b = (Side(f'{command} {shown} {record}') for command in sys.argv[5:7])
    procs = sum(w[0] == 'proc' for w in lines)
    asked = moves = stops = 0
    while asked < count:
        for packet in of_group(rng, words, events, procs, breaks, watches) if name == '-' else packets(rng, words, events, breaks, watches):
            told, wanted = (seen(packet, side.ask(packet)) for side in (a, b))
            asked += 1
            if packet[0] in 'bv':
                moves += 1
                stops += 'replaylog' not in told
            if told != wanted:
                print('DIFFERS', record, name, seed, asked, packet, told, wanted, breaks, watches)
                return 1
    print('same', record, name, seed, 'packets', asked, 'moves', moves, 'that stopped within', stops)
    return 0


sys.exit(main())
