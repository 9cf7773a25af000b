"""The net sheet by the outline: a reader, a writer and what builds sheets. It shares no code with the crates."""
import struct

# code: its name, its operands, whether it uses k, and its rule on w, k and the operands' widths.
CODES = {
    0x00: ('in', '', False, lambda w, k: True),
    0x01: ('const', '', True, lambda w, k: k < 2 ** w),
    0x02: ('reg', 'a', True, lambda w, k, a: a == w and k < 2 ** w),
    0x10: ('not', 'a', False, lambda w, k, a: a == w),
    0x11: ('neg', 'a', False, lambda w, k, a: a == w),
    0x12: ('any', 'a', False, lambda w, k, a: w == 1),
    0x13: ('par', 'a', False, lambda w, k, a: w == 1),
    0x20: ('and', 'ab', False, lambda w, k, a, b: a == b == w),
    0x21: ('or', 'ab', False, lambda w, k, a, b: a == b == w),
    0x22: ('xor', 'ab', False, lambda w, k, a, b: a == b == w),
    0x23: ('add', 'ab', False, lambda w, k, a, b: a == b == w),
    0x24: ('sub', 'ab', False, lambda w, k, a, b: a == b == w),
    0x30: ('eq', 'ab', False, lambda w, k, a, b: w == 1 and a == b),
    0x31: ('ltu', 'ab', False, lambda w, k, a, b: w == 1 and a == b),
    0x40: ('shl', 'ab', False, lambda w, k, a, b: a == w),
    0x41: ('shr', 'ab', False, lambda w, k, a, b: a == w),
    0x50: ('mux', 'abc', False, lambda w, k, a, b, c: a == 1 and b == c == w),
    0x51: ('cat', 'ab', False, lambda w, k, a, b: a + b == w),
    0x52: ('slice', 'a', True, lambda w, k, a: k + w <= a),
}


class Net:
    """A netlist: counts, and arrays that are longer than the counts say."""

    def __init__(self):
        self.nodes = self.outputs = self.labels = 0
        self.record = [dict(code=0, w=0, a=0, b=0, c=0, k=0) for _ in range(1024)]
        self.output = [0] * 64
        self.label = [0] * 4096


def record_good(net, i):
    r = net.record[i]
    if r['code'] not in CODES or not 1 <= r['w'] <= 32:
        return False
    name, operands, uses_k, rule = CODES[r['code']]
    if any(r[f] for f in 'abc' if f not in operands) or (r['k'] and not uses_k):
        return False
    limit = net.nodes if name == 'reg' else i
    if any(r[f] >= limit for f in operands):
        return False
    return rule(r['w'], r['k'], *(net.record[r[f]]['w'] for f in operands))


def bad_entry(labels, nodes):
    """The number of the first bad label entry, or None."""
    at, number, last = 0, 0, -1
    while at < len(labels):
        head = labels[at:at + 3]
        if len(head) < 3:
            return number
        node, size = head[0] + 256 * head[1], head[2]
        text = labels[at + 3:at + 3 + size]
        if not (last < node < nodes and 1 <= size <= 31 and len(text) == size and all(0x20 <= x <= 0x7E for x in text)):
            return number
        at, number, last = at + 3 + size, number + 1, node
    return None


def checks(net):
    """The answer and the place by the numbers 3 to 6."""
    if not (1 <= net.nodes <= 1024 and net.outputs <= 64 and net.labels <= 4096):
        return 3, 0
    for i in range(net.nodes):
        if not record_good(net, i):
            return 4, i
    for j in range(net.outputs):
        if net.output[j] >= net.nodes:
            return 5, j
    bad = bad_entry(net.label[:net.labels], net.nodes)
    return (0, 0) if bad is None else (6, bad)


def read(sheet):
    """The answer, the place and the netlist of a sheet; the netlist of zeros where it is refused."""
    if len(sheet) < 16:
        return 1, 0, Net()
    body = len(sheet) - 16
    labels, outputs, records, edition, letters = struct.unpack('<IIIH2s', sheet[body:])
    if not (labels <= outputs <= records == body and edition == 1 and letters == b'SN'
            and (outputs - labels) % 2 == 0 and (records - outputs) % 12 == 0):
        return 2, 0, Net()
    net = Net()
    net.nodes, net.outputs, net.labels = (records - outputs) // 12, (outputs - labels) // 2, labels
    if not (1 <= net.nodes <= 1024 and net.outputs <= 64 and net.labels <= 4096):
        return 3, 0, Net()
    for i in range(net.nodes):
        net.record[i] = dict(zip(('code', 'w', 'a', 'b', 'c', 'k'), struct.unpack_from('<BBHHHI', sheet, 12 * i)))
    for j in range(net.outputs):
        net.output[j] = struct.unpack_from('<H', sheet, body - outputs + 2 * j)[0]
    net.label[:labels] = sheet[body - labels:body]
    answer, place = checks(net)
    return answer, place, net if answer == 0 else Net()


def write(net, room):
    """The answer, the place and the image of a netlist, for a buffer of so many bytes."""
    answer, place = checks(net)
    if answer:
        return answer, place, b''
    image = b''.join(record(**r) for r in net.record[:net.nodes])
    image += b''.join(struct.pack('<H', x) for x in net.output[:net.outputs]) + bytes(net.label[:net.labels])
    image += trailer(net.labels, net.labels + 2 * net.outputs, len(image))
    return (0, 0, image) if len(image) <= room else (16, 0, b'')


# ---- What builds sheets

def record(code, w, a=0, b=0, c=0, k=0):
    return struct.pack('<BBHHHI', code, w, a, b, c, k)


def trailer(labels, outputs, records, edition=1, letters=b'SN'):
    return struct.pack('<IIIH2s', labels, outputs, records, edition, letters)


def built(records, outputs=(), labels=b''):
    """The sheet of some records, outputs and label bytes."""
    body = b''.join(records) + b''.join(struct.pack('<H', x) for x in outputs) + labels
    return body + trailer(len(labels), len(labels) + 2 * len(outputs), len(body))


def entry(node, text, size=None):
    return struct.pack('<HB', node, len(text) if size is None else size) + text


def inputs(*widths):
    return [record(0, w) for w in widths]


BENCH = bytes.fromhex('''
    00 08 00 00 00 00 00 00 00 00 00 00   02 08 02 00 00 00 00 00 05 00 00 00
    23 08 00 00 01 00 00 00 00 00 00 00   10 08 01 00 00 00 00 00 00 00 00 00
    02 00 03 00   02 00 03 73 75 6D   06 00 00 00 0A 00 00 00 3A 00 00 00 01 00 53 4E''')
