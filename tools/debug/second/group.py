#!/usr/bin/env python3
"""The second implementation of `omlog debug` over all processes of a record: each is an inferior of gdb, and time goes on for all.

    group.py [--log FILE] [--elf PROGRAM=FILE].. RECORD

The ticks of all processes stand in one list, in the order of the record, and going on or back walks it."""
import sys

from stub import SIGINT, SIGPWR, SIGTRAP, TRAPS, History, Stub
from world import Core

ALONE = 'E.time goes on for all processes: first say set schedule-multiple on'
SUPPORTED = ('PacketSize=4000;QStartNoAckMode+;qXfer:features:read+;qXfer:threads:read+;qXfer:exec-file:read+;ReverseStep+;ReverseContinue+;'
             'vContSupported+;swbreak+;hwbreak+;multiprocess+')


class Member(Stub):
    """A process among all: its ticks, and what stops it."""

    def __init__(self, text, number, name, program):
        super().__init__(History(text, name), name, None)
        self.number, self.program = number, program

    def stop(self, signal=SIGTRAP, extra=''):
        return f'T{signal:02x}thread:p{self.number:x}.1;{extra}'

    def standing(self):
        h = self.h
        return 'down' if h.at and h.ticks[h.at - 1].kind == 'fail' else Core(h.m, h.p, h.n).status()

    def told_line(self):
        return f'{self.number} {self.name}: {self.standing()}, {self.h.m.count} instructions\n'


class Group(Stub):
    def __init__(self, text, log, files):
        procs = [line.split()[1:3] for line in text.split('\n') if line.split()[:1] == ['proc']]
        self.members = [Member(text, i + 1, name, program) for i, (name, program) in enumerate(procs)]
        super().__init__(self.members[0].h, '', log)
        self.shown, self.files = list(self.members), files
        # Who makes which tick: each event changes one process, but for a restart, in which all that are not down fail.
        self.line = sorted(((t.e, t.k, i) for i, m in enumerate(self.members) for t in m.h.ticks))
        self.place_now, self.selected, self.going, self.focus = 0, 1, None, 1

    def of(self, number):
        return next((m for m in self.shown if m.number == number), None)

    # --- going. One who was let go of goes on with the others, and stops nobody.
    def told(self, member, said):
        self.selected = self.focus = member.number
        return said

    def on(self, who, stepping, within):
        """Goes on until something stops; the one who steps stops behind a tick of its own that leaves the range."""
        count = 0
        while self.place_now < len(self.line):
            m = self.members[self.line[self.place_now][2]]
            is_shown, t = m in self.shown, m.h.ticks[m.h.at]
            if t.kind == 'fail':
                fallen = self.fallen(t.e)
                if fallen:
                    return self.told(fallen[0], fallen[0].stop(SIGPWR))
                continue
            said = is_shown and (m.broken(t) or m.watched(t))
            if said:
                return self.told(m, said)
            m.h.go(False)
            self.place_now += 1
            if is_shown and t.trap:
                return self.told(m, m.stop(TRAPS[t.trap]))
            if m is who and stepping and not (within and within[0] <= m.h.m.pc < within[1]):
                return self.told(m, m.stop())
            count += 1
            if count % 1000 == 0 and self.interrupted():
                return self.told(who, who.stop(SIGINT))
        return self.told(who, who.stop(extra='replaylog:end;'))

    def fallen(self, e):
        """Makes all failures of an event, and answers who of those that are shown failed."""
        fallen = []
        while self.place_now < len(self.line) and self.line[self.place_now][0] == e:
            fallen.append(self.members[self.line[self.place_now][2]])
            fallen[-1].h.go(False)
            self.place_now += 1
        return [m for m in fallen if m in self.shown]

    def risen(self, e):
        """Undoes what is left of the failures of an event."""
        while self.place_now and self.line[self.place_now - 1][0] == e:
            self.place_now -= 1
            self.members[self.line[self.place_now][2]].h.go(True)

    def back(self, who, stepping):
        """Goes back to the last stop; the one who steps stops right before its own last tick, and where it has none nobody moves."""
        if stepping and not who.h.at:
            return self.told(who, who.stop(extra='replaylog:begin;'))
        while self.place_now:
            m = self.members[self.line[self.place_now - 1][2]]
            is_shown, t = m in self.shown, m.h.ticks[m.h.at - 1]
            said = is_shown and m.watched(t)
            if said:
                return self.told(m, said)
            m.h.go(True)
            self.place_now -= 1
            said = is_shown and m.broken(t)
            if said or m is who and stepping:
                if t.kind == 'fail':
                    self.risen(t.e)
                return self.told(m, said or m.stop())
        return self.told(who, who.stop(extra='replaylog:begin;'))

    def goto(self, e):
        while self.place_now and self.line[self.place_now - 1][0] >= e:
            self.place_now -= 1
            self.members[self.line[self.place_now][2]].h.go(True)
        while self.place_now < len(self.line) and self.line[self.place_now][0] < e:
            self.members[self.line[self.place_now][2]].h.go(False)
            self.place_now += 1

    def place(self):
        return self.line[self.place_now][:2] if self.place_now < len(self.line) else (len(self.h.events), 0)

    # --- what the user asks
    def where(self):
        (e, k), events = self.place(), self.h.events
        next_one = f': {" ".join(map(str, events[e]))}, {k} instructions done' if e < len(events) else ''
        return f'event {e} of {len(events)}{next_one}\n' + ''.join(m.told_line() for m in self.shown)

    # --- packets
    def whom(self, word):
        """The number of a process and whether all its threads are meant; None for any."""
        if not word.startswith('p'):
            return (int(word, 16), False) if word not in ('0', '-1') else None
        process, _, thread = word[1:].partition('.')
        if process in ('0', '-1'):
            return None
        return int(process, 16), thread in ('', '-1')

    def moved(self, q):
        if q in ('bc', 'bs'):
            who = self.of(self.going or self.focus)
            return 'E01' if who is None else self.back(who, q == 'bs')
        if not q.startswith('vCont;'):
            return None
        action, _, thread = q[6:].split(';')[0].partition(':')
        whom = self.whom(thread) if thread.startswith('p') else None
        if whom and whom[1] and len(self.shown) > 1:
            return ALONE
        who = self.of(whom[0] if whom else self.focus)
        if who is None:
            return 'E01'
        within = [int(x, 16) for x in action[1:].split(',')] if action[0] == 'r' else None
        self.focus = who.number
        return self.on(who, action[0] in 'sSr', within)

    def named(self, q):
        """The answer to a packet that names a process, or a thread of it: it has one."""
        word = q[1:] if q[0] == 'T' else q[2:]
        whom, thread = self.whom(word), word.partition('.')[2]
        if thread not in ('', '-1', '0', '1') or whom and self.of(whom[0]) is None:
            return 'E01'
        number = whom and whom[0]
        if q[0] == 'T':
            self.focus = number or self.focus
        elif q[1] == 'g':
            self.selected = number or self.selected
        else:
            self.going = number
        return 'OK'

    def left(self, q):
        member = self.of(int(q.split(';')[1], 16))
        if member is None:
            return 'E01'
        self.shown.remove(member)
        return 'OK'

    def answer(self, q):
        one = self.of(self.selected)
        if q.startswith('qSupported'):
            return SUPPORTED
        if q[:1] in 'HT':
            return self.named(q)
        if q.startswith(('D;', 'vKill;')):
            return self.left(q)
        if q == 'k':
            return 'OK'
        if q == '?':
            return self.members[self.focus - 1].stop()
        if q == 'g' or q[:1] in 'mZz' and q[0] != 'v':
            return one.answer(q) if one else 'E01'
        if q.startswith('qXfer:exec-file:read:'):
            number, part = q.split(':')[3:]
            file = self.files.get(getattr(self.of(int(number, 16)), 'program', None))
            return 'E01' if file is None else self.piece(file, *(int(x, 16) for x in part.split(',')))
        if q.startswith('qXfer:threads:read:'):
            text = ''.join(f'<thread id="p{m.number:x}.1" name="{m.name}">{m.standing()}</thread>' for m in self.shown)
            return self.piece(f'<?xml version="1.0"?><threads>{text}</threads>', *(int(x, 16) for x in q.split(':')[-1].split(',')))
        return super().answer(q)

    def serve(self):
        while True:
            q = self.read()
            self.send(self.members[self.focus - 1].stop(SIGINT) if q == '\x03' else self.answer(q))
            if q == 'QStartNoAckMode':
                self.ack = False
            if q in ('D', 'k') or q.startswith(('D;', 'vKill;')) and not self.shown:
                return


def main():
    words = sys.argv[1:]
    log = open(words.pop(words.index('--log') + 1), 'w') if '--log' in words else None
    files = {}
    while '--elf' in words:
        at = words.index('--elf')
        program, _, file = words[at + 1].partition('=')
        files[program] = file
        del words[at:at + 2]
    Group(open(words[-1]).read(), log, files).serve()


if __name__ == '__main__':
    main()
