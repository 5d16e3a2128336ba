"""Keeps one node of this machine: checks its folder, starts it, watches it, starts it again."""
import asyncio
import re
from typing import Any, Optional

from .config import Place
from .emulated import BAD, Link
from .kept import Child, Kept, Machine, age_of
from .remembered import NotOwn, has_node_files, in_thread, prepare, write_number
from .pipes import now, read_some, until_readable, write_some
from .wire import Way, Wire


class Watch:
    """One more client of a node, and what that answered: its promise, and of its `count` segments
    the `last` txid and the `newest`."""

    def __init__(self, link: Link) -> None:
        self.link, self.calls = link, 0
        self.promise: Optional[int] = None
        self.answered_at, self.listed_at, self.last, self.count, self.newest = 0.0, 0.0, 0, 0, ''

    async def open(self, opened: asyncio.Event) -> None:
        """Waits until the node reads its pipes."""
        while not await self.link.flush(1.0):
            pass
        opened.set()

    async def ask(self, request: str, seconds: float) -> Optional[str]:
        """The answer to a request, or nothing where none comes in time."""
        end, came = now() + seconds, b''
        self.calls += 1
        line = b'#1 %d %s .\n' % (self.calls, request.encode())
        wanted = re.compile(rb'^#1 %d (.*) \.\n' % self.calls, re.MULTILINE)
        is_given = write_some(self.link.requests, line)
        while is_given and await until_readable(self.link.replies, end - now()):
            came += read_some(self.link.replies)
            found = wanted.search(came)
            if found:
                return found[1].decode('ascii', 'replace')
            if came.endswith(BAD):
                is_given = write_some(self.link.requests, line)
        return None

    async def look(self, seconds: float, manifest_each: float) -> bool:
        """Asks the node once; whether it answered."""
        told = await self.ask('state', seconds)
        if not told or not told.startswith('state '):
            return False
        self.promise, self.answered_at = int(told[6:]), now()
        if now() - self.listed_at >= manifest_each:
            told = await self.ask('manifest', seconds)
            if not told or not told.startswith('segments'):
                return False
            # (behind the word stand START END KIND EPOCH of each segment)
            _, *words = told.split()
            self.count, self.listed_at = len(words) // 4, now()
            if words:
                start, end, kind, _ = words[-4:]
                self.last, is_final = int(end), kind == 'final'
                self.newest = f'{start}..{end}' if is_final else f'{start}.. (in progress)'
        return True

    def told(self) -> dict[str, Any]:
        return {'promise': self.promise, 'last': self.last, 'segments': self.count,
                'newest': self.newest, 'answered': age_of(self.answered_at),
                'listed': age_of(self.listed_at)}


class NodeKeeper(Kept):
    """A node: held, lost, checking, refused, starting, answering, hanging, pausing or off. What
    stands in the folder `door` is what it sees of its pipes."""
    kind, well = 'node', 'answering'

    def __init__(self, machine: Machine, place: Place) -> None:
        super().__init__(machine, place, f'node{place.name}')
        self.memory, self.clients = machine.memory, len(machine.config.leads) + 1
        self.door = machine.pipes / self.log / 'clients'
        self.door.mkdir(parents=True)
        self.links = {client: Link(self.door.parent, client)
                      for client in range(1, self.clients + 1)}
        self.ways: dict[str, Way] = {}
        self.watch = Watch(self.links[self.clients])
        self.watching: Optional[asyncio.Task[None]] = None
        self.stand_in()

    async def live(self) -> None:
        if self.name in self.memory.get('held'):
            self.set_state('held')
            await self.pause.sleep(None)
        elif await self.may_start():
            await self.serve()
        else:
            await self.pause.sleep(None if self.state == 'refused' else 1)

    async def may_start(self) -> bool:
        """Whether the folder is the node's own, and the launcher's check lets it be served."""
        limit, path, memory = self.settings.folder_limit, self.place.path, self.memory
        try:
            has_files = await in_thread(limit, has_node_files, self.folder)
            if self.name in memory.get('began') and not has_files:
                self.set_state('lost', f'its files are gone from {path}, and an empty folder would '
                               'forget what it answered: "A lost machine" in docs/OPERATING.md')
                return False
            self.set_state('checking')
            self.remember(await in_thread(limit, prepare, self.folder, self.name,
                                          memory.get('folders')))
        except NotOwn as error:
            self.set_state('refused', f'{path}: {error}; "A lost machine" in docs/OPERATING.md '
                           f'says when `adopt {self.name}` may take it')
            return False
        except OSError as error:
            self.tell_unusable(error)
            return False
        return not self.settings.launcher or await self.is_checked()

    async def is_checked(self) -> bool:
        """Whether the launcher's check, `node` at an empty input, lets the folder be served."""
        with self.machine.open_log(self.log) as log:
            check = Child([str(self.settings.launcher), 'node'], self.folder, log)
        await check.end(self.settings.check_limit)
        check.close()
        if check.status == 0:
            return self.is_wanted and self.name not in self.memory.get('held')
        # (another process may have the folder for a moment; a disk may be mended; a bad file isn't)
        self.set_state('refused' if check.status in (1, 3, 5, 70) else 'pausing',
                       f'the check of {self.place.path} ended with status {check.status}: '
                       f'{self.reasons.get(check.status, "")} (cluster.run/{self.log}.log)')
        return False

    async def serve(self) -> None:
        """One life. The leads' pipes are shown to it once it answered the watch."""
        for path in list(self.door.iterdir()):
            path.unlink()
        self.show(self.clients)
        child = self.start([self.settings.program, 'serve', self.clients, self.door], self.folder)
        self.set_state('starting')
        self.watching = asyncio.create_task(self.watch_it(child))
        await child.ended.wait()
        self.watching.cancel()
        self.child, self.watch.promise, self.watch.listed_at = None, None, 0.0
        self.stand_in()
        said = read_some(child.output).decode('utf-8', 'replace').strip()
        child.close()
        if self.is_wanted and self.name not in self.memory.get('held'):
            await self.rest(child, said)

    def show(self, client: int) -> None:
        """Lets the node have a client's pipes, which it looks for each 100 ms."""
        self.links[client].stand_aside()
        self.links[client].show(self.door, client)

    def stand_in(self) -> None:
        for link in self.links.values():
            link.stand_in()

    async def watch_it(self, child: Child) -> None:
        """Asks the node again and again. One that is silent too long is killed."""
        limit, has_opened = self.settings.watch_limit, asyncio.Event()
        opening = asyncio.create_task(self.watch.open(has_opened))
        is_open = await child.wait_while_busy(has_opened, limit, self.settings.start_limit)
        opening.cancel()
        while is_open and await self.watch.look(limit, self.settings.manifest_each):
            if self.watch.promise or self.watch.count:
                self.memory.note('began', self.name, True)
            if self.state == 'starting':
                for client in range(1, self.clients):
                    self.show(client)
                self.set_state('answering')
                self.machine.looked_for.set()
            await asyncio.sleep(self.settings.watch_each)
        self.set_state('hanging', f'no answer in {limit:g} s: it is killed')
        child.kill()
        self.stand_in()

    async def end_child(self) -> None:
        if self.watching:
            self.watching.cancel()
        await super().end_child()

    async def adopt(self) -> None:
        """Takes the folder as the node's own; OSError where that has no files or can't be used."""
        if not await in_thread(self.settings.folder_limit, has_node_files, self.folder):
            raise OSError('it has no files of a node: an empty folder would forget what the node '
                          'answered')
        self.remember(await in_thread(self.settings.folder_limit, write_number, self.folder))
        self.pause.wake()

    def remember(self, folder: dict[str, Any]) -> None:
        self.memory.put('folders', {**self.memory.get('folders'), self.name: folder})

    async def attach(self, lead: str, wire: Wire) -> bool:
        """Ties a lead elsewhere to its pipes here, once its session of before is ended."""
        if lead in self.machine.leads:
            raise ValueError(f'the lead {lead} is here')
        link = self.links[self.machine.config.client_of(lead)]
        way = Way(f'{self.name} {lead}', link.replies, link.requests)
        if way.key in self.ways:
            self.ways.pop(way.key).close()
        if not await link.flush(self.settings.flush_limit) or way.key in self.ways:
            return False
        self.ways[way.key] = way
        way.open(wire)
        return True

    def told(self) -> dict[str, Any]:
        return {**super().told(), 'number': int(self.name), **self.watch.told()}
