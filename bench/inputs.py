"""Makes the inputs that bench/measure runs the programs on, as docs/FIGURES.md speaks of them. The same ones come each time."""
import random
import sys
from pathlib import Path

sys.path.insert(0, str(Path(__file__).resolve().parent.parent / 'trials'))
import making

BLOCK = 134217728
LONGEST_SCRIPT = 1_000_000


class Edits:
    """A stream of edits over directories of about 100 files, nearly all of which a namespace admits."""

    def __init__(self, seed):
        self.r = random.Random(seed)
        self.made = 0      # edits so far
        self.named = 0     # names given so far
        self.dirs = 0
        self.filling = []  # [directory, files put into it], of the newest ones
        self.open = []     # files under construction
        self.files = []    # all files
        self.place = {}    # file: its index in self.files

    def put(self, path):
        self.place[path] = len(self.files)
        self.files.append(path)

    def remove(self, path):
        at, last = self.place.pop(path), self.files.pop()
        if last != path:
            self.files[at] = last
            self.place[last] = at
        if path in self.open:
            self.open.remove(path)

    def name(self):
        directory = self.r.choice(self.filling)
        directory[1] += 1
        if directory[1] >= 100:
            self.filling.remove(directory)
        self.named += 1
        return f'/d{directory[0]}/f{self.named}'

    def next(self):
        r = self.r
        self.made += 1
        time = 1_000_000 + self.made
        if len(self.filling) < 4:
            self.filling.append([self.dirs, 0])
            self.dirs += 1
            return f'mkdir /d{self.dirs - 1} {time} 755 hdfs hdfs'
        way = r.random()
        if way < .01:  # refused
            return r.choice([f'delete /d0/none {time}', f'mkdir /d0 {time} 755 hdfs hdfs', 'setrep /none/f 2',
                             f'add /none/f 3 {time} {time} {BLOCK} 644 hdfs hdfs'])
        if way < .45 or len(self.files) < 20:
            path = self.name()
            self.put(path)
            self.open.append(path)
            return f'add {path} 3 {time} {time} {BLOCK} 644 hdfs hdfs'
        if way < .80 and self.open:
            path = self.open.pop(r.randrange(len(self.open)))
            lengths = [BLOCK] * r.choice([0, 0, 0, 1, 2]) + [r.randint(1, BLOCK)]
            return f'close {path} {time} {time}' + ''.join(f' {length}' for length in lengths)
        return self.change(r.choice(self.files), way, time)

    def change(self, path, way, time):
        """An edit of a file that is there."""
        if way < .88:
            return f'setrep {path} {self.r.randint(1, 5)}'
        if way < .94:
            to, was_open = self.name(), path in self.open
            self.remove(path)
            self.put(to)
            if was_open:
                self.open.append(to)
            return f'rename {path} {to} {time} no'
        self.remove(path)
        return f'delete {path} {time}'


def some_edits(count, seed):
    edits = Edits(seed)
    return [edits.next() for _ in range(count)]


# ## Scripts

def one_writer(nodes, logs, rolls=0):
    """A takeover and logs of one edit, with a roll at each so many-th."""
    lines = [f'raw {nodes}', 'writer a', 'takeover a']
    for number in range(1, logs + 1):
        lines.append(f'log a {number % 256:02x}')
        if rolls and number % rolls == 0:
            lines.append('roll a')
    return '\n'.join(lines) + '\n'


def drops_first():
    drops = [f'drop a 1 {20_000 + number}' for number in range(60_000)]
    return '\n'.join(['raw 3', 'writer a'] + drops + ['takeover a'] + ['log a 0a'] * 11_000) + '\n'


def lates_after():
    return '\n'.join(['raw 3', 'writer a', 'takeover a'] + ['log a 0a'] * 2_000 + ['late a 1 9'] * 60_000) + '\n'


def restarts():
    """1,000 times two logs, a cut, a restart and a takeover. Each restart opens all segments, so the time grows with the square."""
    again = ['log a 0a', 'cut 2 1 3 a5', 'log a 0b', 'restart 2', 'takeover a']
    return '\n'.join(['raw 3', 'writer a', 'takeover a'] + again * 1_000) + '\n'


def few_lines(nodes):
    return f'raw {nodes}\nwriter a\ntakeover a\nlog a 0a\n'


def name_nodes(takeovers, seed=7):
    """Lines of up to 20 edits; each 2,000 edits a tail and a checkpoint, and where wanted each 500 a takeover by the other one."""
    r, edits = random.Random(seed + 1), Edits(seed)
    lines, size = ['names 3', 'name a', 'name s', 'takeover a'], 0
    active, standby, handed, save = 'a', 's', 0, False
    while size < LONGEST_SCRIPT - 1_300:
        before, first = edits.made, len(lines)
        lines.append(f'log {active} ' + ' ; '.join(edits.next() for _ in range(r.randint(1, 20))))
        if before // 2_000 != edits.made // 2_000:
            lines += [f'tail {standby}', f'checkpoint {standby}']
            save = True
        if takeovers and before // 500 != edits.made // 500:
            old, active, standby = active, standby, active
            handed += 1
            fenced = [f'takeover {active}', f'log {old} mkdir /x{handed} {edits.made} 755 hdfs hdfs']
            lines += (fenced if handed % 2 else [f'close {old}', f'takeover {active}']) + [f'reload {old}']
            if save:
                lines += [f'tail {old}', f'checkpoint {old}']
                save = False
        elif not takeovers and before // 15_980 != edits.made // 15_980:
            lines.append(f'roll {active}')
        size += sum(len(line) + 1 for line in lines[first:])
    return '\n'.join(lines + [f'tail {standby}']) + '\n'


def in_lines(actor, edits, rolls=16_000):
    """Logs of 250 edits a line, with a roll at each so many-th."""
    lines = []
    for at in range(0, len(edits), 250):
        if at and at % rolls == 0:
            lines.append(f'roll {actor}')
        lines.append(f'log {actor} ' + ' ; '.join(edits[at:at + 250]))
    return lines


def saved_and_changed():
    """A name node saves an image of 36,000 directories and logs 10,000 edits after it, about as many as a script can say."""
    paths = [path for top in range(360) for path in [f'/{top}', *(f'/{top}/{number}' for number in range(99))]]
    lines = ['names 1', 'name a', 'takeover a', *in_lines('a', [f'mkdir {path} 1 0 u g' for path in paths]), 'close a', 'checkpoint a']
    lines += ['takeover a', *in_lines('a', [f'chmod {path} 1' for path in paths[-10_000:]]), 'close a']
    return '\n'.join(lines) + '\n'


# ## Segments, images and folders

def bodies_of(edits):
    return [b'\x18'] + [making.record(edit) for edit in edits] + [b'\x17']


def big_segment(with_calls):
    """16,384 edits in frames of 1 to 20."""
    r = random.Random(1)
    edits = some_edits(16_382, 7)
    if with_calls:
        edits = [f'call {r.randbytes(16).hex()} {number} {edit}' for number, edit in enumerate(edits)]
    return making.segment(1, 1, bodies_of(edits), lambda: r.randint(1, 20))


def big_listing():
    """The listing as JSON of the first of those segments."""
    return making.listing(['start', *some_edits(16_382, 7), 'end'], 1)


def big_image(inodes, seed=3):
    """So many inodes, 100 files a directory."""
    r = random.Random(seed)
    paths, directory = ['/'], 0
    while len(paths) < inodes:
        paths.append(f'/d{directory}')
        paths += [f'/d{directory}/f{100 * directory + k + 1}' for k in range(min(100, inodes - len(paths)))]
        directory += 1
    paths.sort(key=making.walk_key)
    rows = []
    for number, path in enumerate(paths):
        if path.count('/') == 2:
            is_open = r.random() >= .9
            lengths = [] if is_open else [BLOCK] * r.choice([0, 0, 0, 1, 2]) + [r.randint(1, BLOCK)]
            rows.append(making.inode(path, 1_000_000 + number, 0o644, 'hdfs', 'hdfs', (3, 1_000_000 + number, BLOCK, is_open, lengths)))
        else:
            rows.append(making.inode(path, 1_000_000 + number, 0o755, 'hdfs', 'supergroup' if path == '/' else 'hdfs', (0, 0)))
    return making.image(3_000_000, rows, [])


def big_folder(folder):
    """A node's folder of 1,000 final segments of about 61 kB."""
    r = random.Random(2)
    bodies, start = bodies_of(some_edits(1_306, 5)), 1
    folder.mkdir(exist_ok=True)
    for _ in range(1_000):
        end = start + len(bodies) - 1
        (folder / f'edits_{start:019}-{end:019}').write_bytes(making.segment(start, 1, bodies, lambda: r.randint(1, 20)))
        start = end + 1
    for name, number in (('last-promised-epoch', 1), ('last-writer-epoch', 1), ('committed-txid', start - 1)):
        (folder / name).write_text(f'{number:019}\n')


# ## Sessions

def session(count, segments=1, reads_each=0):
    """So many journal requests of one edit, over so many segments, with a read of the newest edits at each so many-th line."""
    edits = [making.record(edit) for edit in some_edits(4_000, 11)]
    lines, serial, txid = ['new 1'], 0, 1
    for _ in range(segments):
        start = txid
        serial += 1
        lines.append(f'start 1 {serial} {txid - 1} {start}')
        for number in range(count // segments):
            serial += 1
            body = b'\x18' if txid == start else edits[txid % len(edits)]
            lines.append(f'journal 1 {serial} {txid - 1} {start} {txid} {body.hex()}')
            txid += 1
            if reads_each and number % reads_each == reads_each - 1:
                lines.append(f'read {max(start, txid - 20)}')
        serial += 1
        lines.append(f'finalize 1 {serial} {txid - 1} {start} {txid - 1}')
    return '\n'.join(lines) + '\n'


def reads(count, size, first):
    """A segment of so many edits of a size, in batches of 256, and 1,000 reads of 256: of its first edits, or its last ones."""
    lines, txid, serial = ['new 1', 'start 1 1 0 1'], 1, 1
    while txid <= count:
        batch = min(256, count + 1 - txid)
        serial += 1
        lines.append(f'journal 1 {serial} {txid - 1} 1 {txid} ' + ' '.join(['5a' * size] * batch))
        txid += batch
    lines.append(f'finalize 1 {serial + 1} {count} 1 {count}')
    return '\n'.join(lines + [f'read {1 if first else count - 255}'] * 1_000) + '\n'


def make_all(folder):
    """Writes all inputs into the folder, those that aren't there yet."""
    scripts = {
        'logs16000': lambda: one_writer(3, 16_000),
        'logs60000': lambda: one_writer(9, 60_000, 12_000),
        'logs15000': lambda: one_writer(3, 15_000),
        'mirrored': lambda: one_writer(9, 100_000, 1_000),
        'drops': drops_first,
        'lates': lates_after,
        'restarts': restarts,
        'few15': lambda: few_lines(15),
        'few1': lambda: few_lines(1),
        'names': lambda: name_nodes(False),
        'takeovers': lambda: name_nodes(True),
        'booted': saved_and_changed,
        'session': lambda: session(10_000),
        'session_long': lambda: session(160_000, 10),
        'session_reads': lambda: session(10_000, 1, 20),
        'reads_1001': lambda: reads(1_001, 40, False),
        'reads_16001': lambda: reads(16_001, 40, False),
        'reads_first': lambda: reads(16_001, 200, True),
        'segment': lambda: big_segment(False),
        'calls': lambda: big_segment(True),
        'listing': big_listing,
        'image': lambda: big_image(100_000),
        'image_big': lambda: big_image(1_000_000),
    }
    folder.mkdir(parents=True, exist_ok=True)
    for name, make in scripts.items():
        if not (folder / name).exists():
            data = make()
            (folder / name).write_bytes(data if isinstance(data, bytes) else data.encode())
    if not (folder / 'folder').exists():
        big_folder(folder / 'folder')
