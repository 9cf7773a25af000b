"""Drawings as lists of nodes, and random ones."""
from lib.sheets import built, record

IN, CONST, REG, NOT, NEG, ANY, PAR = 0x00, 0x01, 0x02, 0x10, 0x11, 0x12, 0x13
AND, OR, XOR, ADD, SUB, EQ, LTU = 0x20, 0x21, 0x22, 0x23, 0x24, 0x30, 0x31
SHL, SHR, MUX, CAT, SLICE = 0x40, 0x41, 0x50, 0x51, 0x52

NAMES = {IN: 'in', CONST: 'const', REG: 'reg', NOT: 'not', NEG: 'neg', ANY: 'any', PAR: 'par', AND: 'and', OR: 'or', XOR: 'xor',
         ADD: 'add', SUB: 'sub', EQ: 'eq', LTU: 'ltu', SHL: 'shl', SHR: 'shr', MUX: 'mux', CAT: 'cat', SLICE: 'slice'}


class Node:
    """A record: fields that its code doesn't use are 0."""

    def __init__(self, code, w, a=0, b=0, c=0, k=0):
        self.code, self.w, self.a, self.b, self.c, self.k = code, w, a, b, c, k

    def record(self):
        return record(self.code, self.w, self.a, self.b, self.c, self.k)


def sheet(nodes, outputs, labels=b''):
    return built([n.record() for n in nodes], outputs, labels)


# ---- Random drawings

def any_value(pick, w):
    return pick.choice([0, 1, 2 ** w - 1, 2 ** (w - 1), pick.randrange(2 ** w), pick.randrange(2 ** w)])


def any_node(pick, widths, i):
    """A node of any code whose operands stand among the nodes below i. `widths` has those of all nodes that are there in the end."""
    below = widths[:i]
    w = widths[i]
    alike = [j for j in range(i) if below[j] == w]
    bits = [j for j in range(i) if below[j] == 1]
    anything = range(i)
    sums = [(a, b) for a in anything for b in anything if below[a] + below[b] == w]
    wider = [j for j in anything if below[j] >= w]
    choices = [CONST, REG, REG, IN]
    if alike:
        choices += [NOT, NEG, AND, OR, XOR, ADD, SUB, SHL, SHR] * 2
    if w == 1 and i:
        choices += [ANY, PAR, EQ, LTU] * 5
    choices += [MUX] * 4 * bool(alike and bits) + [CAT] * 4 * bool(sums) + [SLICE] * 4 * bool(wider)
    code = pick.choice(choices)
    n = Node(code, w)
    if code == REG:
        n.a = pick.choice([j for j, other in enumerate(widths) if other == w])
    elif code in (NOT, NEG, AND, OR, XOR, ADD, SUB, SHL, SHR):
        n.a = pick.choice(alike)
        if code in (SHL, SHR):
            n.b = pick.choice(anything)
        elif code not in (NOT, NEG):
            n.b = pick.choice(alike)
    elif code in (ANY, PAR):
        n.a = pick.choice(anything)
    elif code in (EQ, LTU):
        n.a = pick.choice(anything)
        n.b = pick.choice([j for j in anything if below[j] == below[n.a]])
    elif code == MUX:
        n.a, n.b, n.c = pick.choice(bits), pick.choice(alike), pick.choice(alike)
    elif code == CAT:
        n.a, n.b = pick.choice(sums)
    elif code == SLICE:
        n.a = pick.choice(wider)
        n.k = pick.randint(0, below[n.a] - w)
    if code in (CONST, REG):
        n.k = any_value(pick, w)
    return n


def any_drawing(pick, count):
    """So many nodes of a few widths."""
    few = pick.choice([(1, 8), (1, 4, 5, 9), (1, 16, 31, 32), (1, 32), (1, 2, 3, 6), (1, 31, 32)])
    widths = [pick.choice(few) for _ in range(count)]
    return [any_node(pick, widths, i) for i in range(count)]
