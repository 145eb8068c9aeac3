#!/usr/bin/env python3
"""A second implementation of `omlog debug`: answers gdb about a process of a record, over standard input and output.

    stub.py [--log FILE] --process NAME RECORD

The whole record is played once, each change of the process is kept with what undoes it (a tick), and going on or back walks that list.
It stands on world.py, shares no code with the crates, and is slow. --log writes every packet, both ways."""
import os
import re
import select
import sys

from world import Core, World, read

REGS = ['zero', 'ra', 'sp', 'gp', 'tp', 't0', 't1', 't2', 'fp', 's1', 'a0', 'a1', 'a2', 'a3', 'a4', 'a5', 'a6', 'a7',
        's2', 's3', 's4', 's5', 's6', 's7', 's8', 's9', 's10', 's11', 't3', 't4', 't5', 't6']
TARGET = ('<?xml version="1.0"?><!DOCTYPE target SYSTEM "gdb-target.dtd"><target version="1.0">'
          '<architecture>riscv:rv32</architecture><osabi>none</osabi><feature name="org.gnu.gdb.riscv.cpu">'
          + ''.join(f'<reg name="{r}" bitsize="32" regnum="{i}" type="{"data_ptr" if r in ("sp", "gp", "tp", "fp") else "code_ptr" if r == "ra" else "int"}"/>'
                    for i, r in enumerate(REGS))
          + '<reg name="pc" bitsize="32" regnum="32" type="code_ptr"/></feature></target>')
SIGPWR, SIGTRAP, SIGINT, SIGSEGV, SIGILL, SIGBUS = 32, 5, 2, 11, 4, 10
TRAPS = {1: SIGILL, 2: SIGTRAP, 3: SIGSEGV, 4: SIGBUS, 5: SIGBUS, 6: SIGSEGV, 7: SIGILL, 8: SIGSEGV, 9: SIGILL}
HELP = ('where            the event, and how the process stands\nevents           the events around here\n'
        'goto EVENT       go to before an event; then: maintenance flush register-cache\nhelp             this\n')
WORDS = {'2': 'watch', '3': 'rwatch', '4': 'awatch'}


class Tick:
    """One change of the process: in event e, after k instructions of it. A `back` has whole machines, all else pc, registers and bytes."""

    def __init__(self, e, k, kind, old, new, at=0, was=b'', part=b'', load=None):
        self.e, self.k, self.kind, self.at, self.was, self.part, self.load, self.trap = e, k, kind, at, was, part, load, None
        self.pc, self.count = (old.pc, new.pc), (old.count, new.count)
        self.regs = [(r, a, b) for r, (a, b) in enumerate(zip(old.regs, new.regs)) if a != b]
        self.whole = (old.copy(), new.copy()) if kind == 'back' else None


class History:
    """All ticks of the process, and a place among them: `at` ticks were made."""

    def __init__(self, text, name):
        names, images, self.events = read(text)
        self.p = names.index(name)
        self.ticks, self.at, self.n = [], 0, len(images)
        self.m = World(images).procs[self.p].core.m
        self.play(World(images))

    def play(self, world):
        place = world.procs[self.p]
        for e, event in enumerate(self.events):
            mine = len(event) > 1 and event[1] == self.p
            if mine and event[0] == 'run' and place.state == 'up':
                self.run(e, place.core.copy(), event[2])
            old, state = place.core.m.copy(), place.state
            answer = world.play(event)
            if answer.startswith('restarted') and state != 'down':
                self.ticks.append(Tick(e, 0, 'fail', old, old))
            if not mine:
                continue
            new = place.core.m
            if answer.startswith('taken'):
                at, room = old.regs[10], old.regs[11]
                part = world.frames[event[2]].body[:room]
                self.ticks.append(Tick(e, 0, 'recv', old, new, at, bytes(old.mem[at:at + len(part)]), part))
            elif event[0] == 'fail' and state != 'down':
                self.ticks.append(Tick(e, 0, 'fail', old, old))
            elif answer.startswith('back'):
                self.ticks.append(Tick(e, 0, 'back', old, new))
            status = place.core.status() if place.state != 'down' else ''
            if self.ticks and self.ticks[-1].e == e and status.startswith('trapped'):
                self.ticks[-1].trap = int(status.split()[1])

    def run(self, e, core, fuel):
        m = core.m
        for k in range(fuel):
            at, size = self.reach(m)
            was, pc, regs, count = bytes(m.mem[at:at + size]), m.pc, m.regs[:], m.count
            accessed = core.turn()
            if accessed is None:
                return
            to, stored, loaded = accessed
            t = Tick(e, k, 'ins', m, m, to, was[:len(stored)], stored, (to, loaded) if loaded else None)
            t.pc, t.count = (pc, m.pc), (count, m.count)
            t.regs = [(r, a, b) for r, (a, b) in enumerate(zip(regs, m.regs)) if a != b]
            self.ticks.append(t)

    @staticmethod
    def reach(m):
        """Where the next step stores, and how many bytes."""
        try:
            effect = m.effect()
        except Exception:
            return 0, 0
        return (effect[3], len(effect[4])) if effect else (0, 0)

    def go(self, back):
        """One tick; None at the end."""
        if self.at == (0 if back else len(self.ticks)):
            return None
        self.at -= back
        t, m = self.ticks[self.at], self.m
        if t.kind == 'back':
            self.m = t.whole[not back].copy()
        elif t.kind != 'fail':
            m.pc, m.count = t.pc[not back], t.count[not back]
            for r, a, b in t.regs:
                m.regs[r] = a if back else b
            x = t.was if back else t.part
            m.mem[t.at:t.at + len(x)] = x
        self.at += not back
        return t


class Stub:
    def __init__(self, history, name, log):
        self.h, self.name, self.log = history, name, log
        self.ack, self.buf = True, b''
        self.breaks, self.watches = set(), []

    # --- bytes
    def byte(self):
        if not self.buf:
            self.buf = os.read(0, 65536)
            if not self.buf:
                sys.exit(0)
        b, self.buf = self.buf[:1], self.buf[1:]
        return b

    def interrupted(self):
        if not self.buf and select.select([0], [], [], 0)[0]:
            self.buf = os.read(0, 65536)
            if not self.buf:
                sys.exit(0)
        if self.buf[:1] == b'\x03':
            self.buf = self.buf[1:]
            return True
        return False

    def note(self, way, data):
        if self.log:
            self.log.write(way + ' ' + ''.join(chr(b) if 32 <= b < 127 else f'\\x{b:02x}' for b in data) + '\n')
            self.log.flush()

    def read(self):
        while True:
            b = self.byte()
            if b == b'\x03':
                self.note('>', b)
                return '\x03'
            if b != b'$':
                self.note('>', b)
                continue
            raw = b''
            while (b := self.byte()) != b'#':
                raw = b'' if b == b'$' else raw + b
            check = self.byte() + self.byte()
            good = int(check, 16) == sum(raw) % 256
            self.note('>', b'$' + raw + b'#' + check)
            if self.ack:
                os.write(1, b'+' if good else b'-')
            if good:
                return re.sub(rb'\}(.)', lambda m: bytes([m[1][0] ^ 0x20]), raw, flags=re.S).decode('latin-1')

    def send(self, text):
        raw = re.sub(rb'[#$}*]', lambda m: b'}' + bytes([m[0][0] ^ 0x20]), text.encode('latin-1'))
        out = b'$' + raw + b'#%02x' % (sum(raw) % 256)
        self.note('<', out)
        os.write(1, out)

    def stop(self, signal=SIGTRAP, extra=''):
        return f'T{signal:02x}thread:1;{extra}'

    # --- going
    def watched(self, t):
        """What stops before this tick is made or undone."""
        for kind, at, size in self.watches:
            wrote = t.part and t.at < at + size and at < t.at + len(t.part)
            if t.kind == 'back':
                wrote = t.whole[0].mem[at:at + size] != t.whole[1].mem[at:at + size]
            read = t.load and t.load[0] < at + size and at < t.load[0] + t.load[1]
            if kind in '24' and wrote or kind in '34' and read:
                return self.stop(extra=f'{WORDS[kind]}:{at:x};')
        return None

    def broken(self, t):
        """What stops before an instruction is carried out."""
        return self.stop(extra='swbreak:;') if t.kind in ('ins', 'recv') and self.h.m.pc in self.breaks else None

    def go(self, back, stepping, within=None):
        """Goes until something stops; one tick, or until pc leaves a range, where that is asked."""
        h = self.h
        while True:
            near = h.at - back
            if 0 <= near < len(h.ticks):
                t = h.ticks[near]
                said = (None if back else self.broken(t)) or self.watched(t)
                if said:
                    return said
            t = h.go(back)
            if t is None:
                return self.stop(extra=f'replaylog:{"begin" if back else "end"};')
            said = self.broken(t) if back else self.stop(SIGPWR) if t.kind == 'fail' else self.stop(TRAPS[t.trap]) if t.trap else None
            if said:
                return said
            if stepping and not (within and within[0] <= h.m.pc < within[1]):
                return self.stop()
            if h.at % 1000 == 0 and self.interrupted():
                return self.stop(SIGINT)

    def goto(self, e):
        h = self.h
        while h.at and h.ticks[h.at - 1].e >= e:
            h.go(True)
        while h.at < len(h.ticks) and h.ticks[h.at].e < e:
            h.go(False)

    # --- what the user asks
    def place(self):
        """The event that is under way or comes next, and how many instructions of it are done."""
        h = self.h
        return (h.ticks[h.at].e, h.ticks[h.at].k) if h.at < len(h.ticks) else (len(h.events), 0)

    def where(self):
        h, (e, k) = self.h, self.place()
        is_down = h.at and h.ticks[h.at - 1].kind == 'fail'
        status = 'down' if is_down else Core(h.m, h.p, h.n).status()
        next_one = f': {" ".join(map(str, h.events[e]))}, {k} instructions done' if e < len(h.events) else ''
        return f'event {e} of {len(h.events)}{next_one}\n{self.name}: {status}, {h.m.count} instructions\n'

    def monitor(self, words):
        if words[:1] == ['goto'] and len(words) == 2:
            self.goto(int(words[1]))
            return self.where()
        if words == ['where']:
            return self.where()
        if words == ['events']:
            h, e = self.h, self.place()[0]
            return ''.join(f'{"=>" if i == e else "  "} {i} {" ".join(map(str, h.events[i]))}\n' for i in range(max(0, e - 5), min(len(h.events), e + 6)))
        return HELP

    # --- packets
    def piece(self, text, off, length):
        return ('l' if off + length >= len(text) else 'm') + text[off:off + length]

    def point(self, q):
        kind, at, size = q[1:].split(';')[0].split(',')
        at, size = int(at, 16), int(size, 16)
        if kind in '01':
            (self.breaks.add if q[0] == 'Z' else self.breaks.discard)(at)
        elif q[0] == 'z':
            self.watches = [w for w in self.watches if w != (kind, at, size)]
        elif (kind, at, size) not in self.watches:
            self.watches.append((kind, at, size))
        return 'OK'

    def moved(self, q):
        """The answer to a packet that moves, or None."""
        if q in ('bc', 'bs', 'c', 's'):
            return self.go(q[0] == 'b', q[-1] == 's')
        if not q.startswith('vCont;'):
            return None
        what = q[6:].split(';')[0].split(':')[0]
        if what[0] == 'r':
            return self.go(False, True, [int(x, 16) for x in what[1:].split(',')])
        return self.go(False, what[0] in 'sS')

    def answer(self, q):
        h, said = self.h, self.moved(q)
        if said is not None:
            return said
        if q.startswith('qSupported'):
            return ('PacketSize=4000;QStartNoAckMode+;qXfer:features:read+;qXfer:threads:read+;ReverseStep+;ReverseContinue+;'
                    'vContSupported+;swbreak+;hwbreak+')
        if q in ('QStartNoAckMode', 'D') or q[0] in 'HT' or q.startswith(('D;', 'vKill;')):
            return 'OK'
        if q == '?':
            return self.stop()
        if q == 'g':
            return b''.join(r.to_bytes(4, 'little') for r in h.m.regs + [h.m.pc]).hex()
        if q[0] == 'm':
            a, n = (int(x, 16) for x in q[1:].split(','))
            return bytes(h.m.mem[a:a + n]).hex() if a < len(h.m.mem) else 'E01'
        if q[0] in 'MXGP':
            return 'E01'
        if q[0] in 'Zz' and q[1] in '01234':
            return self.point(q)
        if q == 'vCont?':
            return 'vCont;c;C;s;S;r'
        if q.startswith('qAttached'):
            return '1'
        if q.startswith('qRcmd,'):
            return self.monitor(bytes.fromhex(q[6:]).decode().split()).encode().hex()
        m = re.match(r'qXfer:(features|threads):read:([^:]*):([0-9a-f]+),([0-9a-f]+)$', q)
        if m:
            threads = f'<?xml version="1.0"?><threads><thread id="1" name="{self.name}"></thread></threads>'
            return self.piece(TARGET if m[1] == 'features' else threads, int(m[3], 16), int(m[4], 16))
        return ''

    def serve(self):
        while True:
            q = self.read()
            if q == 'k':
                return
            self.send(self.stop(SIGINT) if q == '\x03' else self.answer(q))
            if q == 'QStartNoAckMode':
                self.ack = False
            if q[:1] == 'D' or q.startswith('vKill'):
                return


def main():
    words = sys.argv[1:]
    log = open(words.pop(words.index('--log') + 1), 'w') if '--log' in words else None
    name = words[words.index('--process') + 1]
    Stub(History(open(words[-1]).read(), name), name, log).serve()


if __name__ == '__main__':
    main()
