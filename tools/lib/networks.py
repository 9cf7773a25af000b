"""The network by the outline: opening, feeds, drains, rules, rounds, runs and orders. It shares no code with the crates.

Whether a rule is ready, and what it puts, is worked out from the state alone at the moment when it is tried: rules share nothing else.
"""
from lib.cuts import OUTSIDE, read_cut, used
from lib.sheets import CODES, read

PLACES, QUEUES, NODES, PARTS = 16, 512, 1024, 32    # of the state's arrays: places of a queue, and so on
LONGEST_LIMIT = 4_000_000_000
MOST_ROUNDS = 65_535
FEED, DRAIN, FIRE = 0, 1, 2

# What a node that follows its operands has, before it is cut to w bits: by its record, its operands' values and their widths.
RESULT = {
    'const': lambda r, v, widths: r['k'],
    'not': lambda r, v, widths: ~v[0],
    'neg': lambda r, v, widths: -v[0],
    'any': lambda r, v, widths: int(v[0] > 0),
    'par': lambda r, v, widths: bin(v[0]).count('1'),
    'and': lambda r, v, widths: v[0] & v[1],
    'or': lambda r, v, widths: v[0] | v[1],
    'xor': lambda r, v, widths: v[0] ^ v[1],
    'add': lambda r, v, widths: v[0] + v[1],
    'sub': lambda r, v, widths: v[0] - v[1],
    'eq': lambda r, v, widths: int(v[0] == v[1]),
    'ltu': lambda r, v, widths: int(v[0] < v[1]),
    'shl': lambda r, v, widths: v[0] << v[1] % 32,
    'shr': lambda r, v, widths: v[0] >> v[1] % 32,
    'mux': lambda r, v, widths: v[1] if v[0] else v[2],
    'cat': lambda r, v, widths: v[0] << widths[1] | v[1],
    'slice': lambda r, v, widths: v[0] >> r['k'],
}


def opened(net_sheet, cut_sheet, limit):
    """The answer, the place and the network of two sheets and a cycle limit; no network where one of them is refused."""
    answer, place, net = read(net_sheet)
    if answer:
        return answer, place, None
    answer, place, cut, queues = read_cut(net, cut_sheet)
    if answer:
        return answer, place, None
    if not 1 <= limit <= LONGEST_LIMIT:
        return 15, 0, None
    return 0, 0, Network(net, cut, queues, limit)


class Network:
    def __init__(self, net, cut, queues, limit):
        self.record, self.part = net.record[:net.nodes], cut.part[:net.nodes]
        self.name = [CODES[r['code']][0] for r in self.record]
        self.operands = [list(used(r).values()) for r in self.record]
        self.queue, self.depth = queues.all, cut.depth[:queues.count]
        self.parts, self.limit = queues.parts, limit
        self.inputs = [q for q, (kind, *_) in enumerate(self.queue) if kind == 'in']
        self.outputs = [q for q, (kind, *_) in enumerate(self.queue) if kind == 'out']
        # the queue that brings a node's value into a part: an IN's own one, or the channel of another part's node
        self.bringer = {(node, taker): q for q, (_, node, _, taker) in enumerate(self.queue) if taker != OUTSIDE}
        self.rules = [('put', q) for q, (kind, *_) in enumerate(self.queue) if kind != 'in'] + [('finish', p) for p in range(self.parts)]
        self.walks = {}
        # the state
        self.tokens = [[] for _ in self.queue]
        self.done = [False for _ in self.queue]
        self.held = {i: r['k'] for i, r in enumerate(self.record) if self.name[i] == 'reg'}
        self.finished = [0] * self.parts
        # what no rule looks at: all tokens that a queue was ever given
        self.ever = [[] for _ in self.queue]

    # ---- What a part sees

    def incoming(self, part):
        return [q for q, (_, _, _, taker) in enumerate(self.queue) if taker == part]

    def puts_of(self, part):
        return [q for q, (_, _, giver, _) in enumerate(self.queue) if giver == part]

    def reached(self, node, part):
        """The nodes that a node reaches through operands inside a part, itself too, by number. The walk ends at a REG and at another part's nodes."""
        if (node, part) not in self.walks:       # a matter of the sheets alone, so it can be kept
            met, ahead = set(), [node]
            while ahead:
                i = ahead.pop()
                if i not in met:
                    met.add(i)
                    if self.part[i] == part and self.name[i] != 'reg':
                        ahead += self.operands[i]
            self.walks[node, part] = sorted(met)
        return self.walks[node, part]

    def needs(self, node):
        """The incoming queues of the node's part that its put rules need."""
        part = self.part[node]
        return {self.bringer[i, part] for i in self.reached(node, part) if (i, part) in self.bringer}

    def present(self, node, part):
        """A node's present value in a part, from the oldest tokens of the incoming queues and the part's registers."""
        value = {}
        for i in self.reached(node, part):       # operands have smaller numbers, but for a REG's, which isn't asked for them
            if (i, part) in self.bringer:
                value[i] = self.tokens[self.bringer[i, part]][0]
            elif self.name[i] == 'reg':
                value[i] = self.held[i]
            else:
                r, operands = self.record[i], self.operands[i]
                value[i] = RESULT[self.name[i]](r, [value[a] for a in operands], [self.record[a]['w'] for a in operands]) % 2 ** r['w']
        return value[node]

    # ---- Queues

    def put(self, q, token):
        self.tokens[q].append(token)
        self.ever[q].append(token)

    def room(self, q):
        return len(self.tokens[q]) < self.depth[q]

    def feed(self, i, value):
        if i >= len(self.inputs):
            return 12
        q = self.inputs[i]
        if value >= 2 ** self.record[self.queue[q][1]]['w']:
            return 13
        if not self.room(q):
            return 14
        self.put(q, value)
        return 0

    def drain(self, j):
        """The answer and the token."""
        if j >= len(self.outputs):
            return 12, 0
        q = self.outputs[j]
        return (0, self.tokens[q].pop(0)) if self.tokens[q] else (14, 0)

    def waiting(self, q):
        """The answer and how many tokens a queue has."""
        return (0, len(self.tokens[q])) if q < len(self.queue) else (12, 0)

    def cycles(self, part):
        """The answer and how many cycles a part has finished."""
        return (0, self.finished[part]) if part < self.parts else (12, 0)

    # ---- Rules

    def put_ready(self, q):
        _, node, giver, _ = self.queue[q]
        return (self.finished[giver] < self.limit and not self.done[q] and self.room(q)
                and all(self.tokens[n] for n in self.needs(node)))

    def finish_ready(self, part):
        return (self.finished[part] < self.limit and all(self.done[q] for q in self.puts_of(part))
                and all(self.tokens[q] for q in self.incoming(part)))

    def ready(self, k):
        """The answer that firing a rule would get."""
        if k >= len(self.rules):
            return 12
        kind, number = self.rules[k]
        return 0 if (self.put_ready if kind == 'put' else self.finish_ready)(number) else 14

    def fire(self, k):
        answer = self.ready(k)
        if answer == 0:
            kind, number = self.rules[k]
            if kind == 'put':
                _, node, giver, _ = self.queue[number]
                self.put(number, self.present(node, giver))
                self.done[number] = True
            else:
                self.finish(number)
        return answer

    def finish(self, part):
        changed = {i: self.present(self.operands[i][0], part) for i in self.held if self.part[i] == part}
        self.held.update(changed)
        for q in self.incoming(part):
            self.tokens[q].pop(0)
        for q in self.puts_of(part):
            self.done[q] = False
        self.finished[part] += 1

    # ---- Rounds, runs and orders

    def round(self):
        """How many rules fired."""
        return sum(self.fire(k) == 0 for k in range(len(self.rules)))

    def run(self, most):
        """The answer, how many rounds there were and how many rules fired."""
        if most > MOST_ROUNDS:
            return 12, 0, 0
        rounds = firings = 0
        while rounds < most:
            fired = self.round()
            rounds, firings = rounds + 1, firings + fired
            if fired == 0:
                break
        return 0, rounds, firings

    def order(self, kinds, indexes, values, lent):
        """The answer, and how many feeds, drains and firings were done. Drained tokens go to the lent list, from its start."""
        if not len(kinds) == len(indexes) == len(values):
            return 12, 0, 0, 0
        if kinds.count(DRAIN) > len(lent):
            return 16, 0, 0, 0
        did = [0, 0, 0]
        for kind, index, value in zip(kinds, indexes, values):
            if kind == FEED:
                answer = self.feed(index, value)
            elif kind == DRAIN:
                answer, token = self.drain(index)
                if answer == 0:
                    lent[did[DRAIN]] = token
            elif kind == FIRE:
                answer = self.fire(index)
            else:
                answer = 12
            if answer == 0:
                did[kind] += 1
        return 0, *did

    # ---- The state as arrays

    def arrays(self):
        """Places by queue, oldest token first and zeros behind; tokens by queue; flags by queue; registers by node; finished cycles by part."""
        places, waiting, flags, registers, counts = [0] * (QUEUES * PLACES), [0] * QUEUES, [0] * QUEUES, [0] * NODES, [0] * PARTS
        for q, tokens in enumerate(self.tokens):
            places[PLACES * q:PLACES * q + len(tokens)] = tokens
            waiting[q] = len(tokens)
            flags[q] = int(self.done[q])
        for i, value in self.held.items():
            registers[i] = value
        counts[:self.parts] = self.finished
        return places, waiting, flags, registers, counts
