#!/usr/bin/env python3
"""Writes scripts of calls with long chains and with many chains, for `mcssim replay`.

usage: bench/chains.py nested|many ROUNDS

nested  In each round a client calls a server, which calls the next, and so on 200 deep: the context of the client comes along 200
        reply objects. Then the calls are answered, in three kinds of rounds in turn: from the top, where each server answers its
        caller; from the bottom, where the last server answers the client, then the first server, and so on up to its own caller; and
        cut in the middle, where the caller halfway is suspended, those above it answer from the top, and those below it one by one.
        Between rounds all servers wait again, each with a context of its own, which is taken back.
many    The contexts of 248 clients stand with chains of one reply object each. Beside them a client calls a server, which answers,
        once in each round.

Every step has its line in the book.
"""
import sys

ENDPOINT = 250


class Script:
    """Thread t1 manages the others. Each thread has the context of its number."""

    def __init__(self, threads, replies):
        self.lines = ['cores 1', *['cnode 8', 'cnode 4', 'cnode 8', 'cnode 8', 'endpoint'], *['reply'] * replies]
        self.lines += ['context 0'] * threads
        self.lines += ['thread 10 255 c2 52 0 run s1']
        self.lines += [f'thread 10 255 c1 56 0 run s{t}' for t in range(2, threads + 1)]
        self.lines += [f'slot c1 {ENDPOINT} e1 rwgp 0', *(f'slot c1 {r} r{r}' for r in range(1, min(replies, 249) + 1))]
        self.lines += ['slot c2 1 c3 0 0', 'slot c2 2 c4 0 0']
        self.lines += [f'slot c3 {t} s{t}' for t in range(2, threads + 1)]
        self.lines += [f'slot c4 {t} t{t}' for t in range(2, threads + 1)]

    def step(self, thread, *entry):
        self.lines.append(' '.join(['0', f't{thread}', *map(str, entry)]))

    def bind(self, context, thread):
        self.step(1, 'bind', 256 + context, 512 + thread)

    def unbind(self, context):
        self.step(1, 'unbind', 256 + context)

    def manage(self, entry, thread):
        self.step(1, entry, 512 + thread)

    def call(self, caller):
        self.step(caller, 'call', ENDPOINT, 1)

    def answer(self, server, reply, label):
        """It answers, and waits again."""
        self.step(server, 'replyrecv', ENDPOINT, reply, label)

    def on_own(self, thread, *entry):
        """An entry of a thread that holds no context: with its own one, which is taken back."""
        self.bind(thread, thread)
        self.step(thread, *entry)
        self.unbind(thread)


class Nested(Script):
    """Client t2, servers t3 and on: the reply object of a server has a number that is two less."""

    CLIENT = 2

    def __init__(self, rounds):
        super().__init__(202, 200)
        self.servers = list(range(3, 203))
        for server in self.servers:
            self.step(server, 'recv', ENDPOINT, server - 2)
            self.unbind(server)
        for i in range(rounds):
            for caller in (self.CLIENT, *self.servers[:-1]):
                self.call(caller)
            (self.from_top, self.from_bottom, self.cut)[i % 3]()

    def from_top(self):
        for server in reversed(self.servers):
            self.answer(server, server - 2, 2)
        self.servers.reverse()

    def home(self):
        """The client's context comes back to it from whoever holds it."""
        self.unbind(self.CLIENT)
        self.bind(self.CLIENT, self.CLIENT)

    def from_bottom(self):
        for server in self.servers:
            self.step(self.servers[-1], 'nbsend', server - 2, 3)
        self.home()
        for server in self.servers:
            self.on_own(server, 'recv', ENDPOINT, server - 2)

    def cut(self):
        below, above = self.servers[:100], self.servers[100:]
        self.manage('suspend', below[-1])
        for server in reversed(above):
            self.answer(server, server - 2, 4)
        self.home()
        self.manage('resume', below[-1])
        for server in reversed(below):
            self.on_own(server, 'replyrecv', ENDPOINT, server - 2, 5)
        self.servers.reverse()


class Many(Script):
    """Server t2 takes the calls of t3 to t250 and answers none; client t251 and server t252 go on."""

    def __init__(self, rounds):
        super().__init__(252, 249)
        for client in range(3, 251):
            self.step(2, 'recv', ENDPOINT, client - 2)
            self.unbind(2)
            self.call(client)
            self.unbind(client)
            self.bind(2, 2)
        self.step(252, 'recv', ENDPOINT, 249)
        self.unbind(252)
        for _ in range(rounds):
            self.call(251)
            self.answer(252, 249, 2)


if len(sys.argv) != 3 or sys.argv[1] not in ('nested', 'many'):
    sys.exit(__doc__)
print(*{'nested': Nested, 'many': Many}[sys.argv[1]](int(sys.argv[2])).lines, sep='\n')
