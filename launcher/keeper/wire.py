"""Lines of JSON between a keeper and who asks it: commands by `id`, and bytes of pipes by `to`."""
import asyncio
import json
from typing import Any, Awaitable, Callable, Optional

from .pipes import Outlet, comes, read_some
from .settings import FAULT, UNKNOWN, Reply, answer

LONGEST = 1 << 20


class Wire:
    """One connection. `do` does a command of the other side, where that may give any."""

    def __init__(self, reader: asyncio.StreamReader, write: Callable[[bytes], None],
                 do: Optional[Callable[[Reply], Awaitable[Reply]]] = None) -> None:
        self.reader, self.write, self.do, self.count = reader, write, do, 0
        self.ways: dict[str, Way] = {}
        self.asked: dict[Any, asyncio.Future[Reply]] = {}
        self.tasks: set[asyncio.Task[None]] = set()

    async def run(self) -> None:
        """Takes lines until there are no more. All that was tied to the connection goes with it."""
        try:
            while line := await self.reader.readline():
                self.take(line)
                self.tasks = {task for task in self.tasks if not task.done()}
            if self.tasks:
                await asyncio.wait(self.tasks)
        except (ConnectionError, ValueError, TypeError, KeyError):
            pass
        finally:
            for way in self.ways.values():
                way.close()
            for future in self.asked.values():
                future.cancel()

    def take(self, line: bytes) -> None:
        try:
            told = json.loads(line)
        except ValueError as error:
            told = str(error)
        if not isinstance(told, dict):
            told = {'command': f'in {told!r}: it is no object'}
        if 'to' in told:
            if told['to'] in self.ways:
                self.ways[told['to']].outlet.write(str(told['data']).encode('latin-1'))
        elif self.do:
            self.tasks.add(asyncio.create_task(self.reply(self.do, told)))
        elif told.get('id') in self.asked and not self.asked[told['id']].done():
            self.asked[told['id']].set_result(told)

    async def reply(self, do: Callable[[Reply], Awaitable[Reply]], asked: Reply) -> None:
        try:
            told = await do({**asked, 'wire': self})
        except Exception as error:  # noqa: BLE001
            told = answer(FAULT, f'a fault of the keeper\'s: {error!r}')
        self.send({**told, 'id': asked.get('id')})

    def send(self, told: Reply) -> None:
        self.write(json.dumps(told).encode() + b'\n')

    async def ask(self, seconds: float, asked: Reply) -> Reply:
        """Has the other side do a command, for so many seconds at most."""
        self.count += 1
        number, future = self.count, asyncio.get_running_loop().create_future()
        self.asked[number] = future
        self.send({**asked, 'id': number})
        try:
            if await comes(future, seconds) and not future.cancelled():
                return dict(future.result())
            return answer(UNKNOWN, f'it didn\'t answer in {seconds:g} s, or the way to it broke')
        finally:
            del self.asked[number]


class Way:
    """Of a lead and a node of two machines: passes on a pipe's bytes, and fills another one."""

    def __init__(self, key: str, source: int, sink: int) -> None:
        self.key, self.source, self.outlet = key, source, Outlet(sink)
        self.wire: Optional[Wire] = None

    def open(self, wire: Wire) -> None:
        self.wire, wire.ways[self.key] = wire, self
        asyncio.get_running_loop().add_reader(self.source, self._pump, wire)

    def _pump(self, wire: Wire) -> None:
        wire.send({'to': self.key, 'data': read_some(self.source).decode('latin-1')})

    def close(self) -> None:
        if self.wire:
            self.wire = None
            asyncio.get_running_loop().remove_reader(self.source)
            self.outlet.close()
