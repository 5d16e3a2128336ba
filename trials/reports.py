"""Makes reports for `qjm judge` and `qjm states`, for trials/differ: whole ones of random scripts, and
broken ones.

A report is made by the model, and one in eight by threads or pipes of the program, which may be
another one each time. What is broken is a line, a word or a byte of it; or a call, in the lists of
its node and of its caller alike; or calls of which the nodes' answers are then made anew, by
`node`, so that the lists break nothing but the rounds or the marks.

Damaged reports are those of the kinds of scripts, each with just one byte or one line changed, and
each is to get one verdict.
"""
import re
import subprocess
import tempfile

import making
from making import LARGEST, Case

NUMBERS = [
    b'0', b'1', b'2', b'3', b'9', b'16', b'01', b'-1', b'', str(LARGEST).encode(), str(LARGEST + 1).encode(),
    b'18446744073709551615', b'18446744073709551616',
]
WORDS = [
    b'ok', b'dropped', b'muted', b'silent', b'gone', b'done', b'idle', b'stopped', b'refused', b'late', b'ops', b'a',
    b'b', b'x', b'->', b'kill', b'restart', b'none', b'yes', b'no', b'final', b'inprogress', b'state', b'manifest',
    b'18', b'17', b'0a', b'A5', b'old', b'=', b'end', b'ops2', b'node', b'actor',
]
COLUMNS = [b'-1', b'0', b'16384', b'16385', b'65536', b'9' * 30, b'9' * 31, b'', b'drwxrwxrwT', b'drwxrwxrwt', b'-rw-r--r--', b'd']
LINES = [
    b'', b' ', b'end', b'End', b'Actor a', b'A state -> state 0',
    b'x', b'# x', b'actor ops', b'actor a', b'actor zz', b'actor A', b'node 1', b'node 2',
    b'nodes 3', b'position 0', b'position', b'. /', b'= ', b'= x', b'1 kill -> done', b'1 stop 0 0 -> done',
    b'1 cut 2 3 a5 -> idle', b'1 cut 1 1 b5 -> done', b'ops kill -> done', b'ops kill -> idle', b'ops stop 1 1 -> idle',
    b'a state -> state 0', b'1 state -> dropped', b'1 manifest -> dropped', b'1 manifest -> refused 1 Down',
    b'a manifest -> refused 1 Down', b'1 late state -> gone', b'a late state -> state 0', b'a state -> stopped 0',
    b'1 read 1 -> silent', b'1 read 1 -> refused 15 NotHere 0', b'a read 1 -> refused 15 NotHere 0',
    b'1 purge 1 9 0 4 -> dropped', b'a new 0 -> refused 3 EpochRefused 0', b'99 state -> dropped',
]


class Programs:
    """The programs that make reports: the model, and the program itself."""

    model = qjm = None


def answer(program, words, given, folder=None):
    """What it writes with status 0; nothing where it ends otherwise, or not in time, as threads may on a busy machine."""
    try:
        done = subprocess.run([program, *words], input=given, capture_output=True, timeout=60, cwd=folder)
    except subprocess.TimeoutExpired:
        return b''
    return done.stdout if done.returncode == 0 else b''


def some_script(r):
    """A script, mostly a short one."""
    text = making.script(r, r.choice(['raw', 'names']))
    return text if r.random() < .2 else ''.join(text.splitlines(True)[:r.choice([6, 12, 24, 40])])


def some_report(r):
    """A report, and whether no operator had a hand in it."""
    way = r.random()
    if way < .06:
        return answer(Programs.qjm, ['run'], some_script(r).encode()), False
    if way < .12:
        [(words, given)] = making.carried(r).steps
        return answer(Programs.qjm, words, given), True
    if way < .6:
        return answer(Programs.model, ['play'], some_script(r).encode()), False
    lines = [line for line in some_script(r).split('\n') if line.split(' ')[0] not in ('kill', 'restart', 'stop', 'cut')]
    return answer(Programs.model, ['play'], '\n'.join(lines).encode()), True


# ## Lines, words and bytes

def kind_of(line):
    """What a line of a report is."""
    if b' -> ' in line:
        return 'record' if line[:1].isdigit() else 'history'
    if line.startswith(b'= '):
        return 'result'
    return {b'.': 'row', b'position': 'position', b'actor': 'actor', b'node': 'node', b'nodes': 'nodes'}.get(line.split(b' ')[0], 'end')


def some_place(r, lines):
    """The place of a line, each kind of lines alike."""
    kind = r.choice(sorted({kind_of(line) for line in lines}))
    return r.choice([place for place, line in enumerate(lines) if kind_of(line) == kind])


def changed_number(r, word):
    if word.isdigit() and r.random() < .6:
        return str(max(0, int(word) + r.choice([-1, 1]))).encode()
    return r.choice(NUMBERS)


def changed_line(r, line, words_of_others):
    """A line with a word, a column or a byte changed."""
    gap = b'\t' if b'\t' in line else b' '
    words = line.split(gap)
    at, way = r.randrange(len(words)), r.randrange(9)
    if way < 3:
        places = [place for place, word in enumerate(words) if word.isdigit()]
        at = r.choice(places) if places else at
        words[at] = changed_number(r, words[at])
    elif way == 3:
        words[at] = r.choice(WORDS)
    elif way == 4:
        words[at] = r.choice(words_of_others)
    elif way == 5:
        del words[at]
    elif way == 6:
        words.insert(at, r.choice(WORDS + NUMBERS))
    else:
        at = r.randrange(len(line) + 1)
        byte = bytes([r.choice([9, 32, 45, 48, 49, 62, 97, r.randrange(256)])]).replace(b'\n', b'>')
        return line[:at] + byte + line[at + r.randrange(2):]
    return gap.join(words)


def change_lines(r, lines):
    """A line that is dropped, doubled, moved, changed, put in, or has the reply of another."""
    at, other = some_place(r, lines), some_place(r, lines)
    way = r.randrange(14)
    if way == 0:
        del lines[at]
    elif way == 1:
        lines.insert(at, lines[at])
    elif way == 2 and at + 1 < len(lines):
        lines[at], lines[at + 1] = lines[at + 1], lines[at]
    elif way == 3:
        lines[at], lines[other] = lines[other], lines[at]
    elif way == 4:
        lines.insert(at, lines[other] if r.random() < .3 else r.choice(LINES))
    elif way == 5:
        lines[at] = r.choice(LINES)
    elif way == 6:
        give_other_reply(r, lines)
    elif way < 9:
        change_operator(r, lines)
    elif way < 11:
        change_holding(r, lines)
    else:
        lines[at] = changed_line(r, lines[at], lines[other].split(b' '))


def give_other_reply(r, lines):
    """A call gets the reply of another that asks the same kind of thing."""
    calls = [place for place, line in enumerate(lines) if b' -> ' in line]
    if calls:
        at = r.choice(calls)
        front, _ = lines[at].split(b' -> ', 1)
        alike = [line for line in lines if b' -> ' in line and line.split(b' ')[1] == front.split(b' ')[1]]
        lines[at] = front + b' -> ' + r.choice(alike).split(b' -> ', 1)[1]


def change_operator(r, lines):
    """The operator's record, which may not be there: one more line in it."""
    if b'actor ops' not in lines:
        lines.insert(len(lines) - 1, b'actor ops')
    if r.random() < .9:
        lines.insert(lines.index(b'actor ops') + 1, r.choice([line for line in LINES if line[:2] in (b'1 ', b'= ')]))


def change_holding(r, lines):
    """A position, or a row with columns that are another's, or spelled otherwise."""
    places = [place for place, line in enumerate(lines) if kind_of(line) in ('row', 'position')]
    if places:
        at = r.choice(places)
        columns = lines[at].split(b'\t')
        for _ in range(r.choice([1, 1, 2])):
            column = r.randrange(len(columns))
            columns[column] = r.choice(COLUMNS + [b'0' + columns[column]])
        other = r.choice([b'position ' + r.choice(NUMBERS), lines[at] + b'0', lines[at] + b' '])
        lines[at] = b'\t'.join(columns) if len(columns) > 1 else other


# ## Calls, in both lists

class Report:
    """A report by its lists: each history and each record as a list of lines."""

    def __init__(self, data):
        self.heads, self.lists = [], []
        for line in data.split(b'\n')[1:-2]:
            if line.startswith((b'node ', b'actor ')) and b' -> ' not in line:
                self.heads.append(line)
                self.lists.append([])
            else:
                self.lists[-1].append(line)
        self.nodes = sum(head.startswith(b'node ') for head in self.heads)

    def data(self):
        lines = [b'nodes %d' % self.nodes]
        for head, own in zip(self.heads, self.lists):
            lines += [head, *own]
        return b'\n'.join(lines + [b'end', b''])

    def calls(self):
        """Of each call that reached its node: the list and the place of its line there, and those of the node's."""
        found = []
        for caller in range(self.nodes, len(self.heads)):
            name, seen = self.heads[caller].split(b' ')[1], [0] * self.nodes
            told = [[place for place, line in enumerate(history) if line.split(b' ')[0] == name] for history in self.lists[:self.nodes]]
            for place, line in enumerate(self.lists[caller]):
                if b' -> ' in line and not line.endswith(b' -> dropped'):
                    node = int(line.split(b' ')[0]) - 1
                    found.append((caller, place, node, told[node][seen[node]]))
                    seen[node] += 1
        return found


def change_call(r, report):
    """A call of an actor is changed, left out, made twice, told as lost or copied, in both lists."""
    calls = report.calls()
    if not calls:
        return
    caller, place, node, there = r.choice(calls)
    record, history = report.lists[caller], report.lists[node]
    name = history[there].split(b' ')[0]
    front, told = record[place].split(b' -> ', 1)
    asked = front.split(b' ', 1)[1]
    way = r.randrange(10)
    if way < 3:
        other = changed_line(r, asked, asked.split(b' ')) if r.random() < .9 else b'late ' + asked
        record[place] = b'%d ' % (node + 1) + other + b' -> ' + told
        history[there] = name + b' ' + other + b' -> ' + history[there].split(b' -> ', 1)[1]
    elif way == 3:
        del record[place], history[there]
    elif way == 4:
        record.insert(place, record[place])
        history.insert(there, history[there])
    elif way == 5:
        record[place] = front + b' -> ' + r.choice([b'muted', b'silent'])
    elif way == 6:
        record[place] = front + b' -> dropped'
        del history[there]
    else:
        at = r.choice([place, place + 1])
        copy = r.choice([asked.removeprefix(b'late '), b'state', b'read 1'])
        record.insert(at, b'%d late ' % (node + 1) + copy + b' -> gone')
        history.insert(there + at - place, name + b' late ' + copy + b' -> ok')


def answer_anew(report):
    """The nodes' answers, made by `node` of their requests; callers hear them, where they heard any."""
    for node, history in enumerate(report.lists[:report.nodes]):
        asked = [line.split(b' -> ')[0].split(b' ', 1)[1].removeprefix(b'late ') for line in history]
        with tempfile.TemporaryDirectory(dir=making.SHARED) as folder:
            lines = b''.join(line + b'\n' for line in asked)
            replies = subprocess.run([Programs.model, 'node'], input=lines, capture_output=True, cwd=folder).stdout.split(b'\n')
        for place, (line, reply) in enumerate(zip(history, replies)):
            history[place] = line.split(b' -> ')[0] + b' -> ' + reply
    for caller, place, node, there in report.calls():
        front, told = report.lists[caller][place].split(b' -> ', 1)
        if told not in (b'muted', b'silent', b'gone'):
            report.lists[caller][place] = front + b' -> ' + report.lists[node][there].split(b' -> ', 1)[1]


# ## Cases

def some_text(r):
    data, is_plain = some_report(r)
    way = r.random()
    if way < .12 or not data:
        return data
    if way < .52:
        report = Report(data)
        try:
            for _ in range(r.choice([1, 1, 2])):
                change_call(r, report)
            if is_plain and r.random() < .8:
                answer_anew(report)
        except (IndexError, ValueError):
            pass
        return report.data()
    if way < .58:
        return data[:r.randrange(len(data))] if r.random() < .5 else data + r.choice([b'\n', b'x', b'x\n', b'end\n', b'actor zz\n'])
    lines = data.split(b'\n')[:-1]
    for _ in range(r.choice([1, 1, 1, 2, 3])):
        change_lines(r, lines)
    return b'\n'.join(lines) + b'\n'


def judged(r):
    return Case([(['judge'], some_text(r))])


# ## Damage

# The kinds of cases that tell a report, or are played for one.
SOURCES = ['raw', 'names', 'run', 'piped', 'gen']
# What judge writes of a report, by its status: one line.
VERDICTS = {
    0: rb'agrees\n',
    2: rb'error BadReport [1-9][0-9]* [1-9]\n',
    5: rb'disagrees (Operator|Histories|Calls|Marks|Rounds) (node [1-9][0-9]*|actor [a-z][a-z0-9]*) [1-9][0-9]*\n',
}


def is_verdict(status, output):
    """Whether an answer is just one verdict, with its status."""
    return status in VERDICTS and re.fullmatch(VERDICTS[status], output) is not None


def told_report(r):
    """The report of a case of one of these kinds: the model's, or of some runs by threads and pipes the program's own."""
    kind = r.choice(SOURCES)
    [(words, given)] = making.KINDS[kind](r).steps
    if kind == 'gen':
        seed, count, nodes = words[1], min(int(words[2]), 50), words[3]
        words, given = ['play'], answer(Programs.model, ['gen', seed, str(count), nodes], b'')
    is_own = words != ['play'] and r.random() < .3
    return answer(Programs.qjm if is_own else Programs.model, words, given)


def damaged_byte(r, data):
    """A byte that is changed, left out or put in, in any line or in one of any kind."""
    lines = data.splitlines(True)
    place = some_place(r, [line.removesuffix(b'\n') for line in lines])
    at = r.randrange(len(data)) if r.random() < .5 else sum(map(len, lines[:place])) + r.randrange(len(lines[place]))
    byte = bytes([r.choice([data[at] ^ (1 << r.randrange(8)), r.choice(b'\n\t -0129=>abefo'), r.randrange(256)])])
    return data[:at] + r.choice([byte, byte, byte + data[at:at + 1], b'']) + data[at + 1:]


def damaged_line(r, data):
    """A line that is left out, doubled, another, or changes places with one."""
    lines = data.splitlines(True)
    at, other = some_place(r, [line.removesuffix(b'\n') for line in lines]), r.randrange(len(lines))
    way = r.randrange(6)
    if way == 0:
        del lines[at]
    elif way == 1:
        lines.insert(at, lines[at])
    elif way == 2:
        lines[at] = lines[other]
    elif way == 3:
        lines.insert(at, r.choice(LINES) + b'\n')
    else:
        other = min(at + 1, len(lines) - 1) if way == 4 else other
        lines[at], lines[other] = lines[other], lines[at]
    return b''.join(lines)


def damaged(r):
    """A report of which a byte or a line is damaged, so that it is no longer the same."""
    data = b''
    while not data:
        data = told_report(r)
    given = data
    while given == data:
        given = r.choice([damaged_byte, damaged_line])(r, data)
    return Case([(['judge'], given)])


def told(r):
    return Case([(['states'], some_text(r) if r.random() < .4 else some_report(r)[0])])


KINDS = {'judge': judged, 'damaged': damaged, 'states': told}
# Of a kind, which answers the program may give, as a test of a status and an output; where none stands here it may give any.
ANSWERS = {'damaged': is_verdict}
