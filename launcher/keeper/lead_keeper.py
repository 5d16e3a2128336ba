"""Keeps one lead of this machine, and gives it the lines of all askers, one after the other."""
import asyncio
import re
from dataclasses import dataclass, field
from typing import Any, Optional

from .config import Place
from .emulated import Link
from .kept import REASONS, Child, Kept, Machine, age_of
from .remembered import in_thread
from .pipes import comes, now, read_some
from .settings import DONE, NOT_GIVEN, REFUSED, UNKNOWN, Reply, answer

# Behind each line stands `state`, which makes no call: its answer ends the line's results.
STATE = 'state'
STATES = re.compile(r'= (active (\d+)|standby \d+|broken)\Z')
LONGEST, MOST_WAITING = 16_382, 1000
FIRST_WORDS = ('takeover', 'log', 'roll', 'close', 'trim', 'tail', 'checkpoint', 'reload', STATE)
GOOD = re.compile(r'= (acked|repeated|takeover|roll|close|trim|tail|checkpoint|reload)( \d+){1,2}\Z'
                  r'|= purge ok\Z|' + STATES.pattern)
# The results of lines that take nodes in.
TOOK_IN = re.compile(r'= (takeover \d+|roll) \d+\Z')


def fault_of(line: str) -> str:
    """What keeps a line from being given, if something does."""
    if line.split(' ')[0] not in FIRST_WORDS:
        return f'no lead takes that line; its first word is one of {" ".join(FIRST_WORDS)}'
    is_one = re.fullmatch(f'[ -~]{{1,{LONGEST}}}', line)
    return '' if is_one else f'the line has more than {LONGEST} bytes, or not of printable ASCII'


@dataclass
class Asked:
    """A line that was asked for, and its `outcome`: `told`, its results are all there; `not given`,
    the lead never saw it; `unknown`, the lead or the asker's time ended before all was told, and
    what wasn't told may be logged. `done` is set as the asker has its answer, `left` as the lead
    has left the line, which it is given for `limit` seconds at most."""
    line: str
    limit: float
    results: list[str] = field(default_factory=list)
    outcome: str = ''
    why: str = ''
    done: asyncio.Event = field(default_factory=asyncio.Event)
    left: asyncio.Event = field(default_factory=asyncio.Event)

    def end(self, outcome: str, why: str = '') -> None:
        if not self.done.is_set():
            self.outcome, self.why = outcome, why
            self.done.set()

    @property
    def is_good(self) -> bool:
        """Whether all was told, and each result says that it was done."""
        is_done = self.results and all(GOOD.match(result) for result in self.results)
        return self.outcome == 'told' and bool(is_done)

    def reply(self) -> Reply:
        """The reply to who asked for it."""
        status = {'told': REFUSED, 'unknown': UNKNOWN, 'not given': NOT_GIVEN}[self.outcome]
        return answer(DONE if self.is_good else status, *filter(None, [self.why]),
                      results=self.results, outcome=self.outcome)


class ResultReader:
    """Takes a lead's output apart; `epoch` is that under which it is active, 0 where it isn't."""

    def __init__(self) -> None:
        self.rest, self.epoch = b'', 0
        self.asked: Optional[Asked] = None

    def begin(self, asked: Asked) -> bytes:
        """The bytes to be written for a line."""
        self.asked = asked
        return (asked.line if asked.line == STATE else f'{asked.line}\n{STATE}').encode() + b'\n'

    def take(self, data: bytes) -> Optional[Asked]:
        """Takes bytes of the output; the line that they end, if they do."""
        *lines, self.rest = (self.rest + data).split(b'\n')
        ended = None
        for text in (line.decode('utf-8', 'replace') for line in lines):
            state = STATES.match(text)
            if self.asked and (not state or self.asked.line == STATE):
                self.asked.results.append(text)
            if self.asked and state:
                ended, self.asked, self.epoch = self.asked, None, int(state[2] or 0)
        return ended


class LeadKeeper(Kept):
    """A lead: off, cleaning, starting, ready, pausing or refused. `links` are its pipes to nodes;
    `epoch` is that under which it was active last."""
    kind, well = 'lead', 'ready'
    reasons = {**REASONS, 3: 'an image is damaged: move both of its files away, and `up`'}

    def __init__(self, machine: Machine, place: Place, links: list[Link]) -> None:
        super().__init__(machine, place, f'lead-{place.name}')
        self.links, self.pipes = links, machine.pipes / f'lead-{place.name}'
        self.pipes.mkdir()
        for number, link in enumerate(links, 1):
            link.show(self.pipes, number)
        self.reader, self.queue = ResultReader(), asyncio.Queue[Asked]()
        self.is_active, self.epoch, self.acked, self.last = False, 0, 0, ''
        self.told_at, self.given_at, self.rolled_at = 0.0, 0.0, -1.0

    async def live(self) -> None:
        self.set_state('cleaning')
        try:
            await in_thread(self.settings.folder_limit, self.folder.mkdir, 0o777, True, True)
        except OSError as error:
            self.tell_unusable(error)
            await self.pause.sleep(1)
            return
        await asyncio.gather(*(link.flush(self.settings.flush_limit) for link in self.links))
        if self.is_wanted:
            await self.lead()

    async def lead(self) -> None:
        """One life of the lead."""
        words = [self.settings.program, 'lead', len(self.links), self.pipes]
        child = self.start(words, self.folder)
        self.reader = ResultReader()
        self.set_state('starting')
        asyncio.get_running_loop().add_reader(child.output, self.hear, child)
        giver = asyncio.create_task(self.give_all(child))
        await child.ended.wait()
        giver.cancel()
        self.hear(child)
        asyncio.get_running_loop().remove_reader(child.output)
        child.close()
        self.child, self.is_active = None, False
        asked, self.reader.asked = self.reader.asked, None
        if asked:
            asked.end('unknown', f'the lead {self.name} ended: what wasn\'t told may be logged')
        if not self.is_wanted or child.status in (1, 3):
            self.refuse_all(f'the lead {self.name} was ended, or doesn\'t start')
        if self.is_wanted:
            await self.rest(child, self.reader.rest.decode('utf-8', 'replace'), refused=(1, 3))

    def hear(self, child: Child) -> None:
        """Takes what the lead told."""
        while data := read_some(child.output):
            asked = self.reader.take(data)
            if asked:
                self.told_at = now()
                self.judge(asked)
                asked.end('told')
                asked.left.set()

    def judge(self, asked: Asked) -> None:
        """Whether the lead is active; of one that was overtaken unawares the epoch says so."""
        self.epoch = self.reader.epoch or self.epoch
        self.is_active = self.reader.epoch >= max(1, self.machine.memory.get('epoch'))
        if asked.line == STATE:
            return
        self.last = asked.results[-1] if asked.results else self.last
        self.acked += sum(result.startswith('= acked ') for result in asked.results)
        if any(TOOK_IN.match(result) for result in asked.results):
            self.rolled_at = self.given_at
            if asked.line == 'takeover' and self.reader.epoch:
                self.machine.takeovers += 1
                self.machine.note_active(self.name, self.epoch)

    async def give_all(self, child: Child) -> None:
        """Gives one line after the other, each once the one before is done, in this life."""
        await self.give(child, Asked(STATE, self.settings.ready_limit))
        self.set_state('ready')
        while True:
            asked = await self.queue.get()
            if not asked.done.is_set():
                await self.give(child, asked)

    async def give(self, child: Child, asked: Asked) -> None:
        """Gives a line. Where it takes too long, waits at nodes are ended, and at last the lead."""
        self.given_at = now()
        for link in self.links:
            link.clear_replies()
        if not child.write(self.reader.begin(asked)):
            child.kill()
        for seconds in (asked.limit, self.settings.let_go_limit):
            step = min(seconds, self.settings.lead_limit)
            if await child.wait_while_busy(asked.left, step, seconds):
                return
            for link in self.links:
                link.let_go()
        self.machine.note(f'lead {self.name}: no results in time: it is killed')
        child.kill()
        await asyncio.Event().wait()

    async def ask(self, line: str, seconds: float, limit: Optional[float] = None) -> Asked:
        """Has the lead take a line, and waits so long for its results. The lead is given `limit`
        seconds from when it gets it, or the greater of `seconds` and the usual limit: so an asker
        that waited long for its turn doesn't have it ended."""
        asked, fault = Asked(line, limit or max(seconds, self.settings.line_limit)), fault_of(line)
        if self.state in ('refused', 'off'):
            fault = fault or f'the lead {self.name} doesn\'t run: {self.why}'
        if self.queue.qsize() >= MOST_WAITING:
            fault = fault or f'{MOST_WAITING} lines wait for the lead {self.name} already'
        if fault:
            asked.end('not given', fault)
        else:
            self.queue.put_nowait(asked)
        if not await comes(asked.done.wait(), seconds):
            if asked is self.reader.asked:
                asked.end('unknown', 'no results in time: what wasn\'t told may be logged')
            asked.end('not given', 'its turn didn\'t come in time')
        return asked

    def refuse_all(self, why: str) -> None:
        while not self.queue.empty():
            self.queue.get_nowait().end('not given', why)

    @property
    def silent_for(self) -> float:
        """For how long it has been at a line."""
        return now() - self.given_at if self.reader.asked else 0.0

    @property
    def round(self) -> list[int]:
        """The nodes that its last takeover or roll found there, and that are there since."""
        return [number for number, link in enumerate(self.links, 1) if self.is_active
                and not link.stands_in and link.joined_at <= self.rolled_at]

    def told(self) -> dict[str, Any]:
        return {**super().told(), 'name': self.name, 'last': self.last, 'active': self.is_active,
                'epoch': self.epoch, 'round': self.round, 'acked': self.acked,
                'queue': self.queue.qsize() + (self.reader.asked is not None),
                'silent': round(self.silent_for, 2), 'told': age_of(self.told_at)}
