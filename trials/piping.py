"""Makes and runs cases of `qjm serve` and `qjm lead`, for trials/differ: their far ends are here.

What is done at the pipes is said by the lines of a step's input, so that it is made smaller as
other inputs are. Of `serve`:

  K LINE     client K writes the line, and waits for an answer: a line, or the end
  K& LINE    it writes the line together with its next one, where this one is `state`, `manifest` or
             a `read`
  K- TEXT    it writes the text without an LF, and its session ends
  K* COUNT   it writes a line of so many zeros
  no K       client K has no pipes

Lines of one client that follow one another are a session: the client's pipes are opened before it,
and read to their end behind it. A client that was answered `bad` does nothing more. Then the
standard input is closed, and the program ends by itself. Of `lead`:

  @K WHEN WAY ..   what node K does as it is asked this: the WHEN-th time, or the first time that
                   such a word is asked
  @K absent        node K has no pipes

and each other line is one of the program's standard input. Behind the pipes of node K stands `node`
of the model in the folder nK. It is asked what comes, and answers it, but where its WAY is: `hang`
(hangs up unasked), `lose` (hangs up when it was asked), `cut COUNT` (so many bytes of the answer,
and hangs up), `say TEXT` (this text as its answer, unasked), `raw TEXT` (this line, and then the
answer where it has another tag), `stale TEXT` (this text with the tag of the call before, and then
the answer), `long` (a line that is too long, and hangs up). A node that hangs up puts new pipes in
the place of the old ones first, so that what is asked next finds it there.

Left out is what hangs on time: a node that says nothing and holds its pipe, a client that ends
while it is answered or writes on behind a line that is none, and clients side by side.
"""
import errno
import os
import re
import select
import shutil
import subprocess
import tempfile
import threading
import time
from pathlib import Path

import making
from making import LARGEST, Case

SECONDS = 60
LONGEST_LINE = 1 << 20
# What a pipe takes of which nobody reads.
PIPE_ROOM = 1 << 16
TAGGED = re.compile(rb'#(0|[1-9]\d{0,19}) (0|[1-9]\d{0,19}) (.*) \.', re.DOTALL)
PLAIN = re.compile(rb'#[1-9]\d{0,9} [1-9]\d{0,9} (state|manifest|read [1-9]\d{0,9}) \.')


class Late(Exception):
    """Nothing came in time."""


def put_pipes(stem):
    """New pipes under these names; what was open under them stays so."""
    for name in ('requests', 'replies'):
        os.mkfifo(f'{stem}.{name}.new')
        os.rename(f'{stem}.{name}.new', f'{stem}.{name}')


def write_all(fd, data):
    """Writes all to a pipe, or what is taken before its reader goes; how many bytes that were."""
    rest = data
    try:
        while rest:
            rest = rest[os.write(fd, rest):]
    except BrokenPipeError:
        pass
    return len(data) - len(rest)


# ## Serve

class Client:
    """A client of `serve`, while it has its pipes open."""

    def __init__(self, process, stem, end):
        self.process, self.stem, self.end, self.rest = process, stem, end, b''
        self.source = os.open(f'{stem}.replies', os.O_RDONLY | os.O_NONBLOCK)
        self.sink = self.dial()

    def dial(self):
        """The end to write to, once the node has the other one open; None where the process is over."""
        while self.process.poll() is None:
            try:
                sink = os.open(f'{self.stem}.requests', os.O_WRONLY | os.O_NONBLOCK)
                os.set_blocking(sink, True)
                return sink
            except OSError as error:
                if error.errno != errno.ENXIO:
                    raise
            if time.monotonic() > self.end:
                raise Late
            time.sleep(.0005)
        return None

    def write(self, data, is_first):
        """Writes to the node; whether it took it. At first it may still have its end of the session before, and reads nothing."""
        while (taken := write_all(self.sink, data)) < len(data):
            self.close_sink()
            if is_first and taken <= PIPE_ROOM:
                self.sink = self.dial()
            if self.sink is None:
                return False
        return True

    def read_line(self):
        """The next line of the replies; what is left of them at the end."""
        ready = select.poll()
        ready.register(self.source, select.POLLIN)
        while b'\n' not in self.rest:
            is_over = self.process.poll() is not None
            if not is_over and not ready.poll(50):
                if time.monotonic() > self.end:
                    raise Late
                continue
            data = os.read(self.source, 1 << 16)
            if not data:
                break
            self.rest += data
        line, lf, self.rest = self.rest.partition(b'\n')
        return line + lf

    def hang_up(self):
        """Closes the requests, and reads the replies to their end."""
        self.close_sink()
        told = b''
        while line := self.read_line():
            told += line
        return told

    def close_sink(self):
        if self.sink is not None:
            os.close(self.sink)
            self.sink = None

    def close(self):
        os.close(self.source)
        self.close_sink()

    def session(self, lines):
        """What is answered to the lines, and whether the last answer was `bad`."""
        told, burst, waits = b'', b'', 0
        for mark, text in lines:
            burst, waits = burst + text, waits + 1
            if mark == b'&' and PLAIN.fullmatch(text.rstrip(b'\n')):
                continue
            if not self.write(burst, not told) or mark == b'-':
                burst = b''
                break
            for _ in range(waits):
                line = self.read_line()
                told += line
                if line in (b'bad\n', b''):
                    return told, True
            burst, waits = b'', 0
        self.write(burst, not told)
        rest = self.hang_up()
        return told + rest, rest.endswith(b'bad\n')


def sessions_of(given):
    """The sessions that a step says: the client, and the lines with their marks; and the clients without pipes."""
    sessions, absent = [], set()
    for line in given.split(b'\n'):
        if found := re.fullmatch(rb'no (\d{1,2})', line):
            absent.add(int(found[1]))
        elif found := re.fullmatch(rb'(\d{1,2})([-&*]?) (.*)', line, re.DOTALL):
            client, mark, text = int(found[1]), found[2], found[3]
            if mark == b'*':
                text = b'0' * min(int(text), 2 * LONGEST_LINE) if text.isdigit() else b''
            if not sessions or sessions[-1][0] != client:
                sessions.append((client, []))
            sessions[-1][1].append((mark, text + (b'' if mark == b'-' else b'\n')))
    return sessions, absent


def serve(program, model, words, given, room):
    """The status, the output, and what each client heard."""
    end = time.monotonic() + SECONDS
    sessions, absent = sessions_of(given)
    clients = range(1, 1 + (int(words[1]) if words[1:] and words[1].isdigit() and int(words[1]) <= 64 else 0))
    stems = {client: room / f'clients/{client}' for client in clients if client not in absent}
    shutil.rmtree(room / 'clients', ignore_errors=True)
    (room / 'clients').mkdir()
    for stem in stems.values():
        put_pipes(stem)
    heard, over = {}, set()
    with subprocess.Popen([program, *words], cwd=room, stdin=subprocess.PIPE, stdout=subprocess.PIPE) as process:
        try:
            for client, lines in sessions:
                if client in stems and client not in over:
                    told, is_over = talk(process, stems[client], lines, end)
                    heard[client] = heard.get(client, b'') + told
                    over |= {client} if is_over else set()
            process.stdin.close()
            return process.wait(max(1, end - time.monotonic())), process.stdout.read(), {f'(heard by client {client})': told for client, told in heard.items()}
        finally:
            process.kill()


def talk(process, stem, lines, end):
    """A session of a client."""
    client = Client(process, stem, end)
    try:
        return client.session(lines) if client.sink is not None else (b'', True)
    finally:
        client.close()


# ## Lead

class FarNode(threading.Thread):
    """A node behind its pipes, in a thread."""

    def __init__(self, model, number, room, ways):
        super().__init__(daemon=True)
        self.folder, self.stem = room / f'n{number}', room / f'nodes/{number}'
        self.model, self.ways, self.asked, self.process = model, ways, [], None
        self.folder.mkdir(exist_ok=True)
        self.ends = ()
        self.offer()

    def offer(self, last=b''):
        """New pipes, of which both far ends are open; then some last bytes come through the old ones, which are closed."""
        put_pipes(self.stem)
        old, self.ends = self.ends, [os.open(f'{self.stem}.{name}', os.O_RDWR) for name in ('requests', 'replies')]
        if last:
            write_all(old[1], last)
        for fd in reversed(old):
            os.close(fd)

    def run(self):
        rest = b''
        while True:
            rest += os.read(self.ends[0], 1 << 16)
            while b'\n' in rest:
                line, _, rest = rest.partition(b'\n')
                if line == b'over':
                    return
                self.asked.append(line)
                self.take(line)

    def take(self, line):
        """Does as its way with this line is."""
        found = TAGGED.fullmatch(line)
        if not found:
            return self.offer()
        life, call, text = int(found[1]), int(found[2]), found[3]
        way = self.ways.pop(b'%d' % len(self.asked), None) or self.ways.pop(text.split(b' ')[0], b'')
        word, _, rest = way.partition(b' ')
        if word == b'hang':
            return self.offer()
        if word == b'long':
            return self.offer(b'0' * (LONGEST_LINE + 1))
        # (a line with another tag is passed over, and the answer is waited for)
        told = TAGGED.fullmatch(rest) if word == b'raw' else None
        is_alone = word == b'raw' and not (told and max(int(told[1]), int(told[2])) < 1 << 64 and told.groups()[:2] != found.groups()[:2])
        reply = rest if word == b'say' or is_alone else self.ask(text)
        if word == b'lose' or reply is None:
            return self.offer()
        data = b'#%d %d %s .\n' % (life, call, reply)
        if word == b'raw':
            data = rest + b'\n' + (b'' if is_alone else data)
        if word == b'cut':
            return self.offer(data[:int(rest) % len(data) if rest.isdigit() else 1])
        if word == b'stale':
            data = b'#%d %d %s .\n' % (life, max(1, call - 1) if call > 1 else 2, rest) + data
        return write_all(self.ends[1], data)

    def ask(self, text):
        """The answer of the node in its folder; None where it has none."""
        if not self.process:
            self.process = subprocess.Popen([self.model, 'node'], cwd=self.folder, stdin=subprocess.PIPE, stdout=subprocess.PIPE)
        try:
            self.process.stdin.write(text + b'\n')
            self.process.stdin.flush()
        except BrokenPipeError:
            return None
        reply = self.process.stdout.readline()
        return reply[:-1] if reply.endswith(b'\n') and not reply.startswith(b'error') else None

    def end(self):
        """Lets the thread end, and the node."""
        write_all(self.ends[0], b'over\n')
        self.join(SECONDS)
        if self.process:
            self.process.stdin.close()
            self.process.wait()
            self.process.stdout.close()
        for fd in self.ends:
            os.close(fd)


def ways_of(given):
    """What each node does, by when; and the lines of the standard input."""
    ways, lines = {}, []
    for line in given.split(b'\n'):
        if found := re.fullmatch(rb'@(\d{1,2}) (\S+) ?(.*)', line, re.DOTALL):
            ways.setdefault(int(found[1]), {})[found[2]] = found[3] or b'hang'
        else:
            lines.append(line)
    return ways, b'\n'.join(lines)


def lead(program, model, words, given, room):
    """The status, the output, and what each node was asked."""
    ways, text = ways_of(given)
    count = int(words[1]) if words[1:] and words[1].isdigit() and int(words[1]) <= 15 else 0
    (room / 'nodes').mkdir(exist_ok=True)
    present = [number for number in range(1, count + 1) if b'absent' not in ways.get(number, {})]
    nodes = {number: FarNode(model, number, room, ways.get(number, {})) for number in present}
    for node in nodes.values():
        node.start()
    try:
        with tempfile.TemporaryFile(dir=making.SHARED) as source:
            source.write(text)
            source.seek(0)
            done = subprocess.run([program, *words], cwd=room, stdin=source, stdout=subprocess.PIPE, timeout=SECONDS)
    finally:
        for node in nodes.values():
            node.end()
        for name in (room / 'nodes').iterdir():
            name.unlink()
    return done.returncode, done.stdout, {f'(asked of node {number})': b'\n'.join(node.asked) for number, node in nodes.items()}


RUNS = {'serve': serve, 'lead': lead}


# ## Cases of serve

def tagged(r, text, life, call):
    """A request's line with its tag, and now and then another that is none."""
    line = f'#{life} {call} {text} .'
    way = r.random()
    if way < .97:
        return line
    rest = f'{call} {text} .'
    return r.choice([
        f'#0 {rest}', f'#{life} 0 {text} .', f'#0{life} {rest}', f'{life} {rest}', line[:-2], line[:-2] + '.', f'#{life}  {rest}', f'{line} ',
        f' {line}', f'#{life} {text} .', f'#{1 << 64} {rest}', f'#{(1 << 64) - 1} {rest}', f'#{life} {call} sta{line}', line + line, '', '#',
        '#1 1 .', '#1 1  .', 'bad', f'{line}\r', line[:-1] + 'x .', f'#{life}{line}', f'#+{life} {rest}',
    ])


def client_lines(r, session, client, calls):
    """The lines of a session of a client."""
    lines = []
    for text in session.lines(r.choice([0, 1, 3, 8])).splitlines():
        calls[client] = calls.get(client, 0) + 1
        line = tagged(r, text, r.choice([1, 1, 1, 7]), calls[client])
        if r.random() < .02:
            line = making.bad_line(r, line.encode()).decode('latin-1')
        mark = '&' if r.random() < .2 else ''
        lines.append(f'{client}{mark} {line}'.replace('\n', ' '))
    way = r.random()
    if way < .1 and lines:
        lines[-1] = f'{client}- ' + lines[-1].split(' ', 1)[1][:r.randint(0, 40)]
    elif way < .12:
        lines.append(f'{client}* {r.choice([LONGEST_LINE - 1, LONGEST_LINE, LONGEST_LINE + 1, 1200000])}')
    return lines


def served(r):
    """Sessions of up to three clients at a node, whose folder is fresh, left by one before, or of random files."""
    files, session = {}, making.Session(r)
    if r.random() < .2:
        for _ in range(r.randint(1, 4)):
            making.some_file(r, files)
    steps, calls = [], {}
    for _ in range(r.choice([1, 1, 2])):
        count = r.randint(1, 3)
        lines = [f'no {client}' for client in range(1, count + 1) if r.random() < .05]
        for _ in range(r.randint(0, 5)):
            lines += client_lines(r, session, r.randint(1, count), calls)
        steps.append((['serve', str(count)], '\n'.join(lines).encode('latin-1') + b'\n'))
    return Case(steps + [(['fsck'], b'')], files)


# ## Cases of lead

SAID = [
    'ok', 'bad', '', 'state 0', 'state 5', f'state {LARGEST - 1}', f'state {LARGEST}', f'state {LARGEST + 1}',
    'state x', 'state 01', 'new none', 'new 1', 'new 0', 'new 7', f'new {LARGEST}', f'new {LARGEST + 1}',
    'new none none', 'prepared 1 0 none', 'prepared 1 0 1 final 1 no 1', 'prepared 1 0 1 inprogress 9 yes 3',
    'prepared 1 0 2 final 1 no 3', 'prepared 1 0 1 final 1 no 0', f'prepared {LARGEST + 1} 0 none',
    f'prepared 1 0 1 final 9 no {LARGEST}', f'prepared 1 0 1 final 9 no {LARGEST + 1}', 'prepared 1 0 1 open 1 no 1',
    'prepared 1 0', f'prepared 1 0 {LARGEST} final 9 no {LARGEST}', 'edits 1', 'edits 1 18', 'edits 1 18 18 18',
    'edits 2 18', 'edits 1 A5', f'edits {LARGEST} 18', 'segments', 'refused 1 Down', 'refused 2 Limit 256',
    'refused 3 EpochRefused 9', 'refused 3 EpochRefused', 'refused 3 Down 9', 'refused 6 NoOpenSegment',
    'refused 6 NoOpenSegment 1', 'refused 14 Purged 9', 'refused 14 Purged 0', 'refused 15 NotHere 0',
    'refused 15 NotHere 9', 'refused 16 DiskFault', 'refused 17 OutOfMemory', 'refused 18 BadFile', 'refused 19 X',
    'ok ', ' ok', 'ok ok', 'ok .', '#1 1 ok',
]
ASKED = ['state', 'new', 'prepare', 'fetch', 'accept', 'finalize', 'start', 'journal', 'purge', 'read']


def node_ways(r, number):
    """Lines that say what a node does."""
    if r.random() < .08:
        return [f'@{number} absent']
    lines = []
    for _ in range(r.choice([0, 0, 0, 1, 2, 4])):
        when = r.choice(ASKED) if r.random() < .6 else str(r.randint(1, 30))
        said = r.choice([text for text in SAID if text[:3] in (when[:3], 'ref') or r.random() < .3] or SAID)
        raw = r.choice([said, f'#1 {r.randint(1, 20)} {said} .'])
        way = r.choice(['hang', 'lose', f'cut {r.randint(0, 30)}'] + [f'say {said}'] * 4 + [f'raw {raw}', f'stale {said}'])
        way = 'long' if r.random() < .02 else way
        lines.append(f'@{number} {when} {way}')
    return lines


def lead_line(r, time):
    """A line of a script with names without its actor, or one that is none."""
    way = r.random()
    if way < .03:
        return r.choice([
            '', '# x', 'x', ' takeover', 'takeover ', 'takeover 1', 'takeover a', 'name b', 'name', 'names 3', 'writer', 'drop 1 1', 'late 1 1',
            'kill 1', 'kill', 'purge 3', 'log', 'log ;', 'trim x', 'trim', f'trim {LARGEST}', f'trim {LARGEST + 1}', 'tail\t', 'roll  ', '#',
            'log mkdir /a 1 755 u g ;', 'log  mkdir /a 1 755 u g',
        ])
    if way < .035:
        return 'log ' + 'x' * r.choice([16376, 16377, 16378, 16379, 16380])
    if way < .1:
        return r.choice(['state'] * 9 + ['state a'])
    line = making.script_line(r, 'names', 1, ['a'], time)
    while line.split(' ')[0] in ('drop', 'mute', 'late', 'kill', 'restart', 'stop', 'cut'):
        line = making.script_line(r, 'names', 1, ['a'], time)
    return line.replace(' a', '', 1)


def long_logs(r):
    """Lines that fill a segment until a roll is put in."""
    edits = [f'mkdir /{"x" * 200}{number} 1 755 {"u" * 30} {"g" * 30}' for number in range(60)]
    return ['takeover'] + ['log ' + ' ; '.join(edits[:r.choice([55, 56])]) for _ in range(r.randint(4, 12))] + ['roll', 'log ' + edits[0]]


def led(r):
    """A name node over up to five nodes, in one life or two, in a folder that may have images and a count of starts."""
    files, steps, count = {}, [], r.choice([1, 2, 3, 3, 3, 5])
    if r.random() < .15:
        files['starts'] = making.damaged(r, (making.padded(r.choice([1, 41, LARGEST - 1, LARGEST])) + '\n').encode())
    for _ in range(r.choice([0, 0, 0, 0, 1, 2, 3])):
        data, txid = making.some_image(r)
        name = f'fsimage_{making.padded(txid)}'
        files[name], files[f'{name}.md5'] = making.damaged(r, data) if r.random() < .1 else data, making.digest_file(data, name)
    for _ in range(r.choice([1, 1, 2])):
        lines = [line for number in range(1, count + 1) for line in node_ways(r, number)]
        lines += ['takeover'] * (r.random() < .8)
        for time in range(1, r.choice([3, 10, 25])):
            lines += ['close', 'tail', 'checkpoint', 'takeover'] if r.random() < .1 else [lead_line(r, time)]
        lines += long_logs(r) if r.random() < .01 else []
        steps.append((['lead', str(count)], '\n'.join(lines).encode() + (b'\n' if r.random() < .95 else b'')))
    return Case(steps + [(['fsck'], b'')], files)


KINDS = {'serve': served, 'lead': led}
