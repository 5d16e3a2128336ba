"""Makes random inputs of qjm, for trials/differ, and the bytes of edits, segments, listings and images, for trials/back and bench/ too.

Everything is made after docs/FORMATS.md, EDITS.md and FILES.md. A case is a list of steps in one folder: the words of a command and its
standard input; and the files that the folder has before the first step.
"""
import hashlib
import os
import re
import struct
from dataclasses import dataclass, field

LARGEST = 1 << 62
# Where scratch folders stand: in memory, where there is such a place.
SHARED = '/dev/shm' if os.access('/dev/shm', os.W_OK) else None


@dataclass
class Case:
    """What is run: the steps, each the words of a command and its input, over these files."""

    steps: list
    files: dict = field(default_factory=dict)


# ## Bytes: edit records, segments' files

CODES = dict(add=0, mv=1, delete=2, mkdir=3, setrep=4, chmod=7, setowner=8, close=9, times=13, quota=14, rename=15, concat=16)
# The records that begin and end a segment have no text of their own; here they have these.
MARKS = dict(start=b'\x18', end=b'\x17')


def text(value):
    return struct.pack('>H', len(value)) + value.encode()


def long(number):
    return struct.pack('>Q', int(number))


def short(number):
    return struct.pack('>H', int(number))


def owner(word):
    return text('' if word == '-' else word)


def record(line):
    """The record of an edit, from its text."""
    words = line.split(' ')
    call = b''
    if words[0] == 'call':
        call = bytes.fromhex(words[1]) + struct.pack('>I', int(words[2]))
        words = words[3:]
    kind, w = words[0], words[1:]
    if kind == 'add':
        fields = text(w[0]) + short(w[1]) + b''.join(map(long, w[2:5])) + short(int(w[5], 8)) + text(w[6]) + text(w[7])
    elif kind in ('mv', 'rename'):
        fields = text(w[0]) + text(w[1]) + long(w[2])
        fields += {'mv': b''}.get(kind, b'\1' if w[-1] == 'yes' else b'\0')
    elif kind == 'mkdir':
        fields = text(w[0]) + long(w[1]) + short(int(w[2], 8)) + text(w[3]) + text(w[4])
    elif kind == 'setowner':
        fields = text(w[0]) + owner(w[1]) + owner(w[2])
    elif kind == 'close':
        fields = text(w[0]) + long(w[1]) + long(w[2]) + short(len(w) - 3) + b''.join(map(long, w[3:]))
    elif kind == 'concat':
        fields = text(w[0]) + long(w[1]) + short(len(w) - 2) + b''.join(map(text, w[2:]))
    elif kind in ('setrep', 'chmod'):
        fields = text(w[0]) + short(int(w[1], 8 if kind == 'chmod' else 10))
    else:
        fields = text(w[0]) + b''.join(map(long, w[1:]))
    return bytes([CODES[kind] + (64 if call else 0)]) + call + fields


def body(line):
    """The record of an edit or a mark."""
    return MARKS.get(line) or record(line)


def frame(first, bodies):
    inner = struct.pack('>QI', first, len(bodies)) + b''.join(struct.pack('>H', len(body)) + body for body in bodies)
    return b'\xa5' + struct.pack('>I', len(inner)) + inner


def segment(start, epoch, bodies, size):
    """A segment's file; `size` gives how many bodies the next frame has."""
    parts, at = [b'QJSG' + struct.pack('>IQQ', 1, start, epoch)], 0
    while at < len(bodies):
        count = min(size(), len(bodies) - at)
        parts.append(frame(start + at, bodies[at:at + count]))
        at += count
    return b''.join(parts) + b'\0'


# ## Listings as JSON

NAMES = dict(add='ADD', mv='RENAME_OLD', delete='DELETE', mkdir='MKDIR', setrep='SET_REPLICATION', chmod='SET_PERMISSIONS',
             setowner='SET_OWNER', close='CLOSE', times='TIMES', quota='SET_QUOTA', rename='RENAME', concat='CONCAT_DELETE',
             start='START_LOG_SEGMENT', end='END_LOG_SEGMENT')
KEYS = dict(add='path replication mtime atime blocksize permission user group', mv='src dst time', delete='path time',
            mkdir='path time permission user group', setrep='path replication', chmod='path permission', setowner='path user group',
            close='path mtime atime lengths', times='path mtime atime', quota='path nsquota dsquota', rename='src dst time overwrite',
            concat='target time sources', start='', end='')


def quoted(text):
    return '"' + text.replace('\\', '\\\\').replace('"', '\\"') + '"'


def members(line, txid):
    """The object of an edit in a listing, from its text: each key with its value as JSON."""
    words = line.split(' ')
    found = {'txid': str(txid)}
    if words[0] == 'call':
        found |= {'clientid': quoted(words[1]), 'callid': words[2]}
        words = words[3:]
    found['op'] = quoted('OP_' + NAMES[words[0]])
    for place, key in enumerate(KEYS[words[0]].split(), 1):
        if key in ('lengths', 'sources'):
            found[key] = '[' + ','.join(word if key == 'lengths' else quoted(word) for word in words[place:]) + ']'
        elif key == 'overwrite':
            found[key] = 'true' if words[place] == 'yes' else 'false'
        elif key == 'permission':
            found[key] = str(int(words[place], 8))
        elif key in ('path', 'src', 'dst', 'target', 'user', 'group'):
            found[key] = quoted('' if words[0] == 'setowner' and key != 'path' and words[place] == '-' else words[place])
        else:
            found[key] = words[place]
    return found


def listing(lines, start):
    """What `oev json` writes of these edits from a txid on."""
    objects = (sorted(members(line, txid).items()) for txid, line in enumerate(lines, start))
    return '[' + ','.join('{' + ','.join(f'"{key}":{value}' for key, value in pairs) + '}' for pairs in objects) + ']\n'


# ## Images

def walk_key(path):
    return [] if path == '/' else path[1:].encode().split(b'/')


def inode(path, mtime, permission, user, group, rest):
    """An inode of an image; `rest` is (names, space) of a directory, or (replication, atime, block size, open, lengths)."""
    kind = bytes([len(rest) == 5])
    front = text(path) + kind + long(mtime) + short(permission) + text(user) + text(group)
    if len(rest) == 2:
        return front + long(rest[0]) + long(rest[1])
    replication, atime, block, is_open, lengths = rest
    return front + short(replication) + long(atime) + long(block) + bytes([is_open]) + short(len(lengths)) + b''.join(map(long, lengths))


def image(txid, inodes, calls, layout=2):
    """An image; a call is (client, number, txid)."""
    parts = [b'QJIM' + struct.pack('>IQI', layout, txid, len(inodes)), *inodes]
    if layout == 2:
        parts.append(struct.pack('>I', len(calls)))
        parts += [client + struct.pack('>IQ', number, at) for client, number, at in calls]
    return b''.join(parts)


def digest_file(data, name):
    return f'{hashlib.md5(data).hexdigest()} *{name}\n'.encode()


def padded(number):
    return f'{number:019}'


# ## Scripts

def losses(r, nodes, actors):
    """A line of losses, copies and crashes."""
    way, node, actor = r.random(), r.randint(1, nodes), r.choice(actors)
    if way < .3:
        return f'drop {actor} {node} {r.randint(1, 6)}'
    if way < .55:
        return f'mute {actor} {node} {r.randint(1, 6)}'
    if way < .7:
        return f'late {actor} {node} {r.randint(1, 20)}'
    if way < .75:
        return f'kill {node}'
    if way < .87:
        return f'restart {node}'
    if way < .92:
        return f'stop {node} {r.randint(1, 5)} {r.randint(0, 3)}'
    return f'cut {node} {r.randint(1, 5)} {r.randint(0, 12)} {r.choice(["old", "new", "a5"])}'


def some_path(r):
    if r.random() < .08:
        return r.choice(['/', '/a//b', '/.', 'a', '/' + 'x' * 255, '/' + 'x' * 256, '/a;b', '/a/', '/' + '/'.join(['y' * 240] * 4)])
    return '/' + '/'.join(r.choice('abcde') for _ in range(r.randint(1, 3)))


def some_edit(r, time):
    """The text of an edit that a namespace may admit."""
    call = f'call {r.randint(0, 2):032x} {r.randint(0, 6)} ' if r.random() < .3 else ''
    kind = r.choice('mkdir mkdir mkdir add add close close delete mv rename rename setrep chmod setowner times quota concat'.split())
    path, other = some_path(r), some_path(r)
    name = r.choice(['ann', 'bob', 'hdfs', '9x', 'a-b', '_'])
    permission = oct(r.choice([0o755, 0o644, 0o1777, 0o2000, 0, 0o1770]))[2:]
    replication = r.choice([1, 3, 512, 0, 513])
    lengths = ''.join(f' {r.choice([1, 5, 1000, 2000, 0])}' for _ in range(r.randint(0, 3)))
    return call + {
        'mkdir': f'mkdir {path} {time} {permission} {name} {name}',
        'add': f'add {path} {replication} {time} {time + 1} {r.choice([1, 1024, 1 << 27, 1 << 40, 0])} {permission} {name} {name}',
        'close': f'close {path} {time} {time + 1}{lengths}',
        'delete': f'delete {path} {time}',
        'mv': f'mv {path} {other} {time}',
        'rename': f'rename {path} {other} {time} {r.choice(["yes", "no"])}',
        'setrep': f'setrep {path} {replication}',
        'chmod': f'chmod {path} {permission}',
        'setowner': f'setowner {path} {r.choice(["ann", "-"])} {r.choice(["ops", "-", "9"])}',
        'times': f'times {path} {time} {time + 2}',
        'quota': f'quota {path} {r.choice([0, 5])} {r.choice([0, 7])}',
        'concat': f'concat {path} {time}' + ''.join(f' {some_path(r)}' for _ in range(r.randint(0, 3))),
    }[kind]


def log_line(r, kind, actor, time):
    if kind == 'names':
        edits = ' ; '.join(some_edit(r, time * 10) for _ in range(r.randint(1, 4)))
        if r.random() < .01:
            edits = ' ; '.join(['mkdir /m 1 755 u g'] + [f'chmod /m {k % 8}' for k in range(r.randint(254, 262))])
        if r.random() < .01:
            edits += f' ; close {some_path(r)} 1 2' + ' 1' * r.randint(480, 520)
        return f'log {actor} {edits}'
    count = r.choice([255, 256, 257]) if r.random() < .005 else r.randint(1, 4)
    return f'log {actor} ' + ' '.join(f'{r.randrange(256):02x}' * r.choice([1, 1, 2, 9]) for _ in range(count))


def script_line(r, kind, nodes, actors, time):
    actor, way = r.choice(actors), r.random()
    if way < .12:
        return f'takeover {actor}'
    if way < .16:
        return f'roll {actor}'
    if way < .18:
        return f'close {actor}'
    if way < .36:
        return losses(r, nodes, actors)
    if kind == 'raw':
        return f'purge {actor} {r.randint(0, 40)}' if way < .4 else log_line(r, kind, actor, time)
    if way < .46:
        return f'tail {actor}'
    if way < .50:
        return f'checkpoint {actor}'
    if way < .53:
        return f'reload {actor}'
    if way < .56:
        return f'trim {actor} {r.randint(0, 10)}'
    return log_line(r, kind, actor, time)


def burst(r, nodes, actors):
    """Calls of one actor that are lost, right before what makes them."""
    actor = r.choice(actors)
    lost = [f'{r.choice(["drop", "mute"])} {actor} {r.randint(1, nodes)} {r.randint(1, 9)}' for _ in range(r.randint(1, 4))]
    return lost + [f'{way} {actor}' for way in r.choice([['takeover'], ['roll', 'takeover'], ['close', 'takeover'], ['roll'], ['takeover', 'takeover']])]


def script(r, kind):
    """A script of this kind, raw or names."""
    nodes = r.choice([1, 2, 3, 3, 3, 4, 5, 7, 15])
    actors = 'abc'[:r.randint(1, 3)]
    lines = [f'{kind} {nodes}'] + [f"{'writer' if kind == 'raw' else 'name'} {actor}" for actor in actors]
    for time in range(1, r.choice([10, 25, 60, 120])):
        lines += burst(r, nodes, actors) if r.random() < .06 else [script_line(r, kind, nodes, actors, time)]
    return '\n'.join(lines) + '\n'


def lonely(r):
    """A script of one actor and no operator, which `run` answers as `play` does."""
    kind = r.choice(['raw', 'names'])
    lines = [line for line in script(r, kind).split('\n') if line.split(' ')[0] not in ('kill', 'restart', 'stop', 'cut')]
    words = [line.split(' ') for line in lines]
    own = [line for line, word in zip(lines, words) if len(word) < 2 or word[0] in ('raw', 'names') or word[1] == 'a']
    return Case([(['run'], '\n'.join(own).encode())])


def carried(r):
    """A script of one actor and no operator that pipes carry, or nearly."""
    [(_, text)] = lonely(r).steps
    lines = [line for line in text.split(b'\n') if not line.startswith(b'late ') or r.random() < .02]
    if lines[0].startswith(b'names') and r.random() < .9:
        return carried(r)
    if r.random() < .1:
        at = r.randrange(len(lines))
        lines[at] = bad_line(r, lines[at])
    return Case([(['piped'], b'\n'.join(lines))])


# ## Sessions at a node

class Session:
    """Request lines that a writer could make, and some that none would."""

    def __init__(self, r):
        self.r, self.epoch, self.serial, self.start, self.next = r, 0, 0, 1, 1

    def head(self):
        r = self.r
        self.serial += 1
        epoch = self.epoch if r.random() < .98 else max(1, self.epoch + r.choice([-1, 1, 2]))
        serial = self.serial if r.random() < .98 else max(1, self.serial - r.randint(0, 2))
        committed = max(0, self.next - 1 - r.choice([0, 0, 0, 1, 5, 20])) if r.random() < .99 else r.choice([LARGEST, LARGEST + 1, 0])
        return f'{max(1, epoch)} {serial} {committed}'

    def number(self, value):
        r = self.r
        return value if r.random() < .97 else max(1, r.choice([value - 1, value + 1, 1, LARGEST, LARGEST + 1, (1 << 64) - 1]))

    def bodies(self, most):
        r = self.r
        count = r.choice([1, 1, 1, 2, 5, most])
        return [f'{r.randrange(256):02x}' * r.choice([1, 1, 2, 10, 300]) for _ in range(count)]

    def new_epoch(self):
        self.epoch += self.r.choice([1, 1, 1, 2, 0])
        self.serial = 0
        return f'new {self.epoch}'

    def begin(self):
        self.start = self.next
        return f'start {self.head()} {self.number(self.start)}'

    def journal(self):
        first, bodies = self.next, self.bodies(self.r.choice([20, 257]))
        self.next += len(bodies)
        return f'journal {self.head()} {self.number(self.start)} {self.number(first)} ' + ' '.join(bodies)

    def finalize(self):
        return f'finalize {self.head()} {self.number(self.start)} {self.number(max(1, self.next - 1))}'

    def accept(self):
        bodies = self.bodies(30)
        start = self.number(self.r.choice([self.start, self.start, 1]))
        if start == self.start:
            self.next = start + len(bodies)
        return f'accept {self.head()} {start} ' + ' '.join(bodies)

    def line(self):
        r = self.r
        way = r.choice(['new'] + ['start'] * 3 + ['journal'] * 8 + ['finalize'] * 3 + ['accept', 'prepare', 'fetch', 'purge', 'purge', 'look', 'look'])
        if way == 'look':
            return r.choice(['state', 'manifest', f'read {max(1, self.next - r.randint(0, 9))}', f'read {r.randint(1, 30)}'])
        if way == 'prepare':
            return f'prepare {self.head()} {self.number(self.start)}'
        if way == 'fetch':
            return f'fetch {self.head()} {self.number(self.start)} {self.number(max(1, self.next - r.randint(1, 4)))}'
        if way == 'purge':
            return f'purge {self.head()} {r.randint(0, self.next + 2)}'
        return {'new': self.new_epoch, 'start': self.begin, 'journal': self.journal, 'finalize': self.finalize, 'accept': self.accept}[way]()

    def lines(self, count):
        first = [self.new_epoch(), self.begin(), self.journal()] if self.r.random() < .8 else []
        return ''.join(line + '\n' for line in first + [self.line() for _ in range(count)])


def sessions(r):
    """One to three sessions in one folder, and its check."""
    session = Session(r)
    steps = [(['node'], session.lines(r.choice([3, 10, 40])).encode()) for _ in range(r.randint(1, 3))]
    return Case(steps + [(['fsck'], b'')])


# ## Damage

def damaged(r, data):
    """The bytes with up to two single bytes changed, or cut."""
    data = bytearray(data)
    for _ in range(r.choice([0, 1, 1, 2])):
        if not data:
            break
        at = r.randrange(len(data)) if r.random() < .7 else r.randrange(min(60, len(data)))
        way = r.random()
        if way < .5:
            data[at] = r.choice([0, 1, 255, 0xa5, r.randrange(256), data[at] ^ (1 << r.randrange(8))])
        elif way < .7:
            del data[at:]
        elif way < .8:
            del data[at]
        elif way < .9:
            data.insert(at, r.randrange(256))
        else:
            data += r.randbytes(r.randint(1, 3))
    return bytes(data)


def odd_text(r, most):
    """Any text that a record may have."""
    return ''.join(chr(r.randint(0x21, 0x7e)) for _ in range(r.choice([1, 2, 5, 20]))).replace(' ', '')[:most]


def odd_edit(r):
    """The text of an edit with any fields that a record may have."""
    def number():
        return r.choice([0, 1, r.randrange(1 << 20), LARGEST])

    def path():
        return '/' + odd_text(r, 100)

    def name():
        return odd_text(r, 32)

    kind, permission = r.choice(sorted(CODES)), oct(r.randrange(65536))[2:]
    line = {
        'add': f'add {path()} {r.randrange(65536)} {number()} {number()} {number()} {permission} {name()} {name()}',
        'mv': f'mv {path()} {path()} {number()}',
        'delete': f'delete {path()} {number()}',
        'mkdir': f'mkdir {path()} {number()} {permission} {name()} {name()}',
        'setrep': f'setrep {path()} {r.randrange(65536)}',
        'chmod': f'chmod {path()} {permission}',
        'setowner': f'setowner {path()} {r.choice(["-", name()])} {r.choice(["-", name()])}',
        'close': f'close {path()} {number()} {number()}' + ''.join(f' {number()}' for _ in range(r.randrange(4))),
        'times': f'times {path()} {number()} {number()}',
        'quota': f'quota {path()} {number()} {number()}',
        'rename': f'rename {path()} {path()} {number()} {r.choice(["yes", "no"])}',
        'concat': f'concat {path()} {number()}' + ''.join(' ' + path() for _ in range(r.randrange(4))),
    }[kind]
    return f'call {r.randbytes(16).hex()} {r.randrange(1 << 32)} {line}' if r.random() < .3 else line


def odd_edits(r, count):
    """The texts of so many edits, between the marks of their segment or without them."""
    edits = [odd_edit(r) for _ in range(count)]
    return ['start', *edits, 'end'] if r.random() < .5 else edits


def some_segment(r, start=None):
    """A segment's file, its start and its last txid."""
    bodies = [body(line) for line in odd_edits(r, r.randint(1, 12))]
    start = start or r.choice([1, 5, 1 << 40, LARGEST - 3])
    return segment(start, r.choice([1, 2, LARGEST]), bodies, lambda: r.randint(1, 4)), start, start + len(bodies) - 1


def segments(r):
    data, start, last = some_segment(r)
    name = f'edits_{padded(start)}-{padded(last)}' if last <= LARGEST else 'x'
    return Case([(['oev', way, name], b'') for way in ('list', 'stats', 'json')] + [(['fsck'], b'')], {name: damaged(r, data)})


# ## Listings that become segments

# Values of each kind of JSON, and at the ends of ranges: of 16, 32, 62 and 64 bits, and of floats.
ODD_VALUES = ['null', 'true', 'false', '0', '-0', '-1', '1.0', '1e0', '1E-2', '01', '+1', '.5', '1.', '65535', '65536', '4294967295', '4294967296',
              str(LARGEST), str(LARGEST + 1), str((1 << 64) - 1), str(1 << 64), '1e308', '1.7976931348623158e308', '1.7976931348623159e308', '1e309',
              '9' * 308, '9' * 309, '-' + '9' * 400, '[]', '{}', '""', '"x"', '" "', '"-"', '[1]', '["/a"]', '[[]]', '[1,"/a"]', '{"path":"/a"}',
              '"OP_DELETE"', '"OP_MKDIR"', '"OP_END_LOG_SEGMENT"', '"DELETE"', '"' + 'x' * 32 + '"', '"' + 'x' * 33 + '"', '"/' + 'x' * 999 + '"',
              '"/' + 'x' * 1000 + '"', '"' + '0f' * 16 + '"', '"' + '0F' * 16 + '"', '[' + '7,' * 600 + '7]', '"\\u0000"', '"\u00e9"', '"\\ud83d\\ude00"']
# What stands between two tokens, and bytes that may come into a text.
GAPS = ['', '', ' ', '\n', '\t', '\r\n', '   ']
ODD_PIECES = [b'"', b'\\', b'{', b'}', b'[', b']', b',', b':', b'0', b'1', b'-', b'.', b'e', b'E+', b'null', b'//', b'\x00', b'\x1f', b'\x7f', b'\xff', b'\xc3',
              b'\xc3\xa9', b'\xed\xa0\x80', b'\xf0\x9f\x98\x80', b'\xef\xbb\xbf', b'\\u0041', b'\\ud83d', b'\\ude00', b'\\ud83d\\ude00', b'\\/', b'\\x', b'\\u00g0',
              b'"op":"OP_DELETE",', b'"txid":1,', b',"a":1', b'[[', b']]']


def escaped(r, value):
    """The text of a JSON text with some of its characters escaped."""
    inner = [char if r.random() < .6 or char in '"\\' else f'\\u{ord(char):04{r.choice("xX")}}' for char in value[1:-1]]
    return value if '\\' in value else '"' + ''.join(inner) + '"'


def changed_value(r, value):
    """Another value, or the same one in another form."""
    if r.random() < .4:
        return r.choice(ODD_VALUES)
    if value.isdigit():
        return r.choice([str(int(value) + 1), str(max(0, int(value) - 1)), value + '.0', value + 'e0', '-' + value, '0' + value, quoted(value)])
    return escaped(r, value) if value.startswith('"') else r.choice([value, f'[{value}]', quoted(value.replace('"', ''))])


def changed_pairs(r, pairs):
    """The members of an object with a key dropped, doubled, renamed, escaped or with another value, or in another order."""
    at = r.randrange(len(pairs)) if pairs else 0
    way = r.randrange(7) if pairs else 6
    if way == 0:
        return pairs[:at] + pairs[at + 1:]
    if way == 1:
        other = r.randrange(len(pairs) + 1)
        return pairs[:other] + [(pairs[at][0], changed_value(r, pairs[at][1]))] + pairs[other:]
    if way == 2:
        return pairs[:at] + [(r.choice(['"path"', '"time"', '"mtime"', '"callid"', '"clientid"', '""', '"length"']), pairs[at][1])] + pairs[at + 1:]
    if way == 3:
        return pairs[:at] + [(escaped(r, pairs[at][0]), pairs[at][1])] + pairs[at + 1:]
    if way == 4:
        return r.sample(pairs, len(pairs))
    return pairs[:at] + [(pairs[at][0], changed_value(r, pairs[at][1]))] + pairs[at + 1:] if pairs else [('"op"', '"OP_DELETE"')]


def spaced(r, lines, start, ways):
    """The text of a listing, with spaces between tokens or none, and each so many-th object changed."""
    has_gaps = r.random() < .3

    def gap():
        return r.choice(GAPS) if has_gaps else ''

    objects = []
    for txid, edit in enumerate(lines, start):
        pairs = [(quoted(key), value) for key, value in sorted(members(edit, txid).items())]
        while r.random() < ways:
            pairs = changed_pairs(r, pairs)
        inner = ','.join(f'{gap()}{key}{gap()}:{gap()}{value}{gap()}' for key, value in pairs)
        objects.append(f'{gap()}{{{inner or gap()}}}{gap()}')
    if objects and r.random() < ways:
        deep = r.choice([1, 125, 126, 127, 128])
        objects[r.randrange(len(objects))] = r.choice(['7', 'null', '"/a"', '[]', '{}', '[' * deep + ']' * deep, '{"a":' * deep + '1' + '}' * deep])
    return gap() + '[' + (','.join(objects) or gap()) + ']' + gap()


def some_listing(r, start):
    """A listing from a txid on, of which members, and bytes, are changed in some."""
    if r.random() < .01:
        return b'[' + b'7,' * r.choice([16383, 16384]) + b'7' + r.choice([b']', b'', b',8]'])
    count = r.choice([255, 256, 257, 520]) if r.random() < .02 else r.choice([0, 1, 1, 2, 3, 12])
    ways = 0 if count > 12 else r.choice([0, .1, .3])
    data = spaced(r, odd_edits(r, count), start, ways).encode()
    if r.random() < .7:
        return data
    for _ in range(r.choice([1, 1, 2])):
        at = r.randrange(len(data) + 1)
        data = data[:at] + r.choice(ODD_PIECES) + data[at + r.choice([0, 0, 1, 3]):]
    return damaged(r, data) if r.random() < .3 else data


def backs(r):
    start = r.choice([1, 5, 1 << 40, LARGEST - 1, LARGEST])
    told = start if r.random() < .95 else r.choice([1, start - 1, start + 1, LARGEST])
    words = ['oev', 'back', 'listing', str(told), str(r.choice([1, 2, LARGEST]))]
    return Case([(words, b'')], {'listing': some_listing(r, start)})


# ## Images and folders

def some_image(r):
    """An image, as damaged as may be, and its txid."""
    names = ['a', 'b', 'a!', 'a.b', 'zz', '~', '0']
    paths = {'/'}
    for _ in range(r.choice([0, 1, 3, 8, 20])):
        above = r.choice(sorted(paths))
        paths.add((above if above != '/' else '') + '/' + r.choice(names))
    above = {path.rsplit('/', 1)[0] or '/' for path in paths if path != '/'} | {'/'}
    inodes, txid = [], r.choice([0, 9, 1 << 30, LARGEST])
    for path in sorted(paths, key=walk_key):
        if path in above or r.random() < .3:
            rest = (r.choice([0, 5]), r.choice([0, 1 << 40]))
        else:
            rest = (r.choice([1, 3, 512]), r.randrange(99), r.choice([1, 1 << 27, 1 << 40]), r.randrange(2), [r.choice([1, 1024, 1 << 30, 1 << 40])] * r.randrange(4))
        inodes.append(inode(path, r.choice([0, 77, LARGEST]), r.choice([0, 0o755, 0o644, 0o1777, 0o1776]), r.choice(['ann', '_', 'A.b-c_9']), 'g', rest))
    calls = [(r.randbytes(16), number, number + 1) for number in range(min(txid, r.choice([0, 1, 3])))]
    if calls and r.random() < .1:
        calls.append(calls[0])
    return image(txid, inodes, calls, r.choice([1, 2, 2, 2])), txid


def images(r):
    data, txid = some_image(r)
    name = f'fsimage_{padded(txid)}'
    digest = digest_file(data, name) if r.random() < .3 else None
    data = damaged(r, data)
    files = {name: data, f'{name}.md5': damaged(r, digest or digest_file(data, name))}
    listed = [(['oiv', way, name], b'') for way in ('delimited', 'sizes', 'json')] + [(['oiv', 'ls', name, path_in(r, data)], b'') for _ in range(3)]
    return Case(listed + [(['fsck'], b'')], files)


def path_in(r, data):
    """A path that an image may have, or nearly."""
    paths = re.findall(rb'/[!-:<-~]*', data)
    path = r.choice([b'/'] + paths)
    return r.choice([path, path, path.rsplit(b'/', 1)[0] or b'/', path + b'/', b'/none'])


def some_file(r, files):
    """Puts a file of a node, or one that nearly is."""
    start = r.randint(1, 6)
    data, start, last = some_segment(r, start)
    way = r.choice(['final', 'final', 'progress', 'number', 'record', 'epoch', 'temporary', 'foreign', 'image'])
    if way == 'final':
        files[f'edits_{padded(start)}-{padded(last if r.random() < .9 else last + 1)}'] = data
    elif way == 'progress':
        files[f'edits_inprogress_{padded(start)}'] = data if r.random() < .7 else data[:24] + b'\0'
    elif way == 'number':
        files[r.choice(['last-promised-epoch', 'last-writer-epoch', 'committed-txid'])] = (padded(r.choice([1, 2, LARGEST, LARGEST + 1])) + '\n').encode()
    elif way == 'record':
        files[f'paxos/{padded(start)}'] = f'{padded(r.choice([1, 2]))} {padded(last)}\n'.encode()
    elif way == 'epoch':
        files[f'edits_inprogress_{padded(start)}.epoch={r.choice([1, 2, 2, "02"])}'] = data
    elif way == 'temporary':
        files[r.choice(['x.tmp', 'last-promised-epoch.tmp', f'paxos/{padded(start)}.tmp', f'edits_inprogress_{padded(start)}.new'])] = data
    elif way == 'foreign':
        files[r.choice(['VERSION', 'edits_1', 'paxos/1', f'edits_{padded(9)}-{padded(3)}', 'committed-txid2', 'fsimage_9'])] = data
    else:
        name = f'fsimage_{padded(r.randint(0, 9))}'
        files[name], _ = some_image(r)
        if r.random() < .8:
            files[f'{name}.md5'] = digest_file(files[name], name)
        if r.random() < .3:
            del files[name]


def folders(r):
    """A folder of such files, one of them damaged now and then: it is checked, and served."""
    files = {}
    for _ in range(r.randint(1, 6)):
        some_file(r, files)
    if files and r.random() < .4:
        name = r.choice(sorted(files))
        files[name] = damaged(r, files[name])
    asks = ['state', 'manifest', 'read 1', 'read 5', 'new 9', 'prepare 9 1 0 1', 'prepare 9 2 0 3', 'fetch 9 3 0 1 1']
    lines = ''.join(r.choice(asks) + '\n' for _ in range(r.randint(0, 4)))
    return Case([(['fsck'], b''), (['node'], lines.encode()), (['fsck'], b''), (['node'], b'manifest\n')], files)


# ## Bad lines and bad words

def bad_line(r, line):
    """A line that is changed a little."""
    words = line.split(b' ')
    way = r.randrange(8)
    if way == 0:
        return line + r.choice([b' ', b'\r', b'\t', b' x', b'\xc3\xa9'])
    if way == 1:
        return b' ' + line
    if way == 2 and len(words) > 1:
        del words[r.randrange(len(words))]
    elif way == 3:
        words.insert(r.randrange(len(words) + 1), r.choice([b'', b'0', b'x', b';', b'18']))
    elif way == 4:
        words[r.randrange(len(words))] = r.choice([b'0', b'00', b'01', b'18446744073709551616', b'4611686018427387905', b'A5', b'abc', b'ops', b'-1', b'#'])
    elif way == 5:
        return r.choice([b'', b' ', b'# x', b'raw 3', b'names 3', b'writer a', b'name a', b'purge a 1', b'tail a', b'log a', b'log a ;'])
    elif line:
        at = r.randrange(len(line))
        return line[:at] + bytes([r.choice([0, 9, 32, 0x7f, 0x80, 48, 65, r.randrange(256)])]).replace(b'\n', b' ') + line[at + r.randrange(2):]
    return b' '.join(words)


def bad_lines(r):
    """A script or a session of which a line or two are changed."""
    kind = r.choice(['raw', 'names', 'node'])
    given = Session(r).lines(6) if kind == 'node' else script(r, kind)
    lines = given.encode().split(b'\n')[:-1]
    lines = lines[:r.randint(1, len(lines))]
    for _ in range(r.choice([1, 1, 2])):
        at = r.choice([0, r.randrange(len(lines)), len(lines) - 1])
        lines[at] = bad_line(r, lines[at])
    end = b'\n' if r.random() < .9 else b''
    return Case([(['node' if kind == 'node' else 'play'], b'\n'.join(lines) + end)])


def bad_words(r):
    """Words that make a command, or nearly."""
    known = ['play', 'run', 'piped', 'mirror', 'boot', 'node', 'fsck', 'oev', 'oiv', 'gen', 'list', 'stats', 'json', 'back', 'delimited', 'sizes', 'ls', '/', '/d', 's', 'none', '', '.', '1', '3', '15', '16', '0', '01', '4611686018427387905', '10001', b'\xff', 'x/y', 's/y']
    words = [r.choice(known) for _ in range(r.randint(0, 4))]
    if r.random() < .6:
        words = r.choice([['oev', 'list'], ['oev', 'stats'], ['oev', 'back', 's'], ['oev', 'back', 's', '1'], ['oiv', 'json'], ['oiv', 'ls'], ['oiv', 'ls', 's'], ['gen', str(r.randrange(9)), str(r.choice([0, 1, 40])), str(r.randint(1, 16))], ['play'], ['node']]) + words[:2]
    data, _, _ = some_segment(r)
    return Case([(words, b'')], {'s': data})


def generated(r):
    """`gen` of some number."""
    return Case([(['gen', str(r.choice([r.randrange(1 << 62), r.randrange(99)])), str(r.choice([0, 1, 50, 400, 1500])), str(r.randint(1, 15))], b'')])


KINDS = {
    'raw': lambda r: Case([(['play'], script(r, 'raw').encode())]),
    'names': lambda r: Case([(['play'], script(r, 'names').encode())]),
    'run': lonely,
    'piped': carried,
    'mirror': lambda r: Case([(['mirror'], script(r, r.choice(['raw', 'names'])).encode())]),
    'boot': lambda r: Case([(['boot'], script(r, 'names' if r.random() < .9 else 'raw').encode())]),
    'gen': generated,
    'node': sessions,
    'segment': segments,
    'back': backs,
    'image': images,
    'folder': folders,
    'lines': bad_lines,
    'words': bad_words,
}
