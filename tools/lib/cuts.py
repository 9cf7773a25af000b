"""The cut sheet by the outline: its queues, a reader, a writer and label lookup. It shares no code with the crates."""
import struct

from lib.sheets import CODES, bad_entry, read

OUTSIDE = 32                         # the part of whoever feeds and drains
NO_QUEUE = 512                       # in the maps by node


class Cut:
    """A cut: counts, and arrays that are longer than the counts say."""

    def __init__(self):
        self.nodes = self.queues = self.labels = 0
        self.part, self.depth, self.label = [0] * 1024, [0] * 512, [0] * 4096


def used(record):
    """The operand fields that a record's code uses, with the nodes they name."""
    return {field: record[field] for field in CODES[record['code']][1]}


def queues_of(net, part):
    """The queues in order, each as kind, node, the part that puts and the part that takes."""
    records = net.record[:net.nodes]
    reads = {(node, part[user]) for user, r in enumerate(records) for node in used(r).values()}
    ins = [('in', i, OUTSIDE, part[i]) for i, r in enumerate(records) if CODES[r['code']][0] == 'in']
    channels = [('ch', node, part[node], taker) for node, taker in sorted(reads) if part[node] != taker]
    outs = [('out', node, part[node], OUTSIDE) for node in net.output[:net.outputs]]
    return ins + channels + outs


class Queues:
    """The queues with their counts and the maps by node."""

    def __init__(self, net=None, part=None):
        self.parts = self.count = self.inputs = self.channels = self.outputs = 0
        self.all = []
        self.input, self.a, self.b, self.c = ([0] * 1024 for _ in range(4))
        if net:
            self.fill(net, part)

    def fill(self, net, part):
        self.all = queues_of(net, part)
        self.parts, self.count = max(part[:net.nodes]) + 1, len(self.all)
        self.inputs, self.channels, self.outputs = (sum(q[0] == kind for q in self.all) for kind in ('in', 'ch', 'out'))
        number = {(kind, node, taker): i for i, (kind, node, _, taker) in enumerate(self.all)}
        for i, r in enumerate(net.record[:net.nodes]):
            fields = used(r)
            self.input[i] = number.get(('in', i, part[i]), NO_QUEUE)
            for field in 'abc':
                getattr(self, field)[i] = number.get(('ch', fields.get(field), part[i]), NO_QUEUE)

    def cells(self, which):
        """One of the arrays by queue."""
        cells = [q[which] for q in self.all]
        return cells + [0] * (512 - len(cells))


def checks(net, cut):
    """The answer and the place by 7's label bytes and by 8 to 11."""
    if cut.labels > 4096:
        return 7, 0
    if cut.nodes != net.nodes:
        return 8, 0
    part = cut.part[:net.nodes]
    for i, p in enumerate(part):
        if p > 31:
            return 8, i
    queues = queues_of(net, part)
    if len(queues) > 512 or cut.queues != len(queues):
        return 9, 0
    for i, depth in enumerate(cut.depth[:len(queues)]):
        if not 1 <= depth <= 16:
            return 9, i
    joined = {p for _, _, giver, taker in queues for p in (giver, taker)}
    for p in range(max(part) + 1):
        if p not in joined:
            return 10, p
    bad = bad_entry(cut.label[:cut.labels], net.nodes)
    return (0, 0) if bad is None else (11, bad)


def counts_good(net):
    return 1 <= net.nodes <= 1024 and net.outputs <= 64 and net.labels <= 4096


def read_cut(net, sheet):
    """The answer, the place, the cut and its queues; all zeros where the sheet is refused."""
    nothing = Cut(), Queues()
    if not counts_good(net):
        return 3, 0, *nothing
    if len(sheet) < 16:
        return 7, 0, *nothing
    body = len(sheet) - 16
    labels, depths, parts, edition, letters = struct.unpack('<IIIH2s', sheet[body:])
    if not (labels <= depths <= parts == body and edition == 1 and letters == b'SC' and labels <= 4096):
        return 7, 0, *nothing
    cut = Cut()
    cut.nodes, cut.queues, cut.labels = parts - depths, depths - labels, labels
    if cut.nodes != net.nodes:
        return 8, 0, *nothing
    cut.part[:cut.nodes] = sheet[:cut.nodes]
    kept = sheet[body - depths:body - labels][:512]
    cut.depth[:len(kept)] = kept
    cut.label[:labels] = sheet[body - labels:body]
    answer, place = checks(net, cut)
    return (answer, place, *nothing) if answer else (0, 0, cut, Queues(net, cut.part))


def write_cut(net, cut, room):
    """The answer, the place and the image of a cut, for a buffer of so many bytes."""
    answer, place = checks(net, cut)
    if answer:
        return answer, place, b''
    image = built_cut(cut.part[:cut.nodes], cut.depth[:cut.queues], bytes(cut.label[:cut.labels]))
    return (0, 0, image) if len(image) <= room else (16, 0, b'')


def entry_of(labels, node):
    """The text of a node's entry in good label bytes, or None."""
    at = 0
    while at < len(labels):
        size = labels[at + 2]
        if labels[at] + 256 * labels[at + 1] == node:
            return bytes(labels[at + 3:at + 3 + size])
        at += 3 + size
    return None


def label(net_sheet, cut_sheet, node):
    """A node's label and the sheet that it is a part of, 'cut' or 'net'; with none, the empty part of the net sheet."""
    answer, _, net = read(net_sheet)
    if answer == 0:
        answer, _, cut, _ = read_cut(net, cut_sheet)
    if answer == 0 and node < net.nodes:
        for where, labels in ('cut', cut.label[:cut.labels]), ('net', net.label[:net.labels]):
            text = entry_of(labels, node)
            if text is not None:
                return text, where
    return b'', 'net'


# ---- What builds sheets

def cut_trailer(labels, depths, parts, edition=1, letters=b'SC'):
    return struct.pack('<IIIH2s', labels, depths, parts, edition, letters)


def built_cut(parts, depths, labels=b''):
    """The sheet of some part numbers, depths and label bytes."""
    body = bytes(parts) + bytes(depths) + labels
    return body + cut_trailer(len(labels), len(labels) + len(depths), len(body))


BENCH_CUT = bytes.fromhex('00 01 00 01  01 01 01 01 01  00 00 00 00 05 00 00 00 09 00 00 00 01 00 53 43')
