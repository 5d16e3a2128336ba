"""Another machine: a relay to its keeper, over which beats, commands and bytes of pipes go."""
import asyncio
import os
import shlex
from pathlib import Path
from typing import Optional

from .config import Config, Place
from .emulated import Link
from .kept import Kept, Machine, Pause, age_of
from .pipes import Outlet, now
from .settings import NO_KEEPER, SOCKET, Reply
from .wire import LONGEST, Way, Wire

HELLO_LIMIT = 10.0
SSH = ['ssh', '-T', '-o', 'BatchMode=yes', '-o', 'ConnectTimeout=3', '-o', 'ServerAliveInterval=2',
       '-o', 'ServerAliveCountMax=2']


def words_to(config: Config, machine: Place) -> list[str]:
    """The relay to a keeper's socket: by ssh `attach` runs there; for socat it listens itself."""
    if config.relay[0] == 'socat':
        _, port, pem, ca = config.relay
        return ['socat', '-', f'OPENSSL:{machine.address}:{port},cert={pem},cafile={ca},verify=1,'
                'connect-timeout=3']
    return [*SSH, *config.relay[1:], machine.address, f'exec {os.environ.get("QJM_REMOTE", "qjm")} '
            f'cluster -C {shlex.quote(machine.folder)} attach']


def words_to_listen(config: Config) -> list[str]:
    """What listens for other machines' relays; nothing where sshd does."""
    if config.relay[0] != 'socat' or not config.others:
        return []
    _, port, pem, ca = config.relay
    return ['socat', f'OPENSSL-LISTEN:{port},reuseaddr,fork,cert={pem},cafile={ca},verify=1',
            f'UNIX-CONNECT:{SOCKET}']


class FarLink(Link):
    """The pipes of a lead here to a node elsewhere; while there is no way the keeper stands in."""

    def __init__(self, folder: Path, client: int, node: str, lead: str) -> None:
        super().__init__(folder, client)
        self.node, self.lead = node, lead
        self.way = Way(f'{node} {lead}', self.requests, self.replies)
        self.stand_in()


class Listener(Kept):
    """What listens for the relays of other machines, in the cluster's folder."""
    kind = 'listener'

    async def live(self) -> None:
        child = self.start(words_to_listen(self.machine.config), self.machine.top)
        await child.ended.wait()
        child.close()
        self.set_state('pausing', f'what listens ended with status {child.status}')
        await self.pause.after(now() - child.began)


class Peer(Kept):
    """A machine: connecting, connected or pausing; `is_gone` where no keeper runs there."""
    kind, well = 'machine', 'connected'

    def __init__(self, machine: Machine, line: Place) -> None:
        super().__init__(machine, line, f'relay-{line.name}')
        self.config, self.state, self.pause = machine.config, 'connecting', Pause(0.2, 1.0, 10.0)
        self.links: list[FarLink] = []
        self.wire: Optional[Wire] = None
        self.deaths: Optional[int] = None
        self.is_gone, self.heard_at, self.clock_ahead = False, 0.0, 0.0

    def told(self) -> Reply:
        return {'name': self.name, 'state': self.state, 'why': self.why,
                'heard': age_of(self.heard_at), 'clock_ahead': round(self.clock_ahead, 2)}

    async def live(self) -> None:
        """Keeps a relay until it ends, or the keeper there doesn't answer in time."""
        child = self.start(words_to(self.config, self.place), self.machine.top)
        reader, outlet = asyncio.StreamReader(LONGEST), Outlet(child.input)
        await asyncio.get_running_loop().connect_read_pipe(
            lambda: asyncio.StreamReaderProtocol(reader), child.stdout)
        wire = self.wire = Wire(reader, outlet.write)
        tasks = [asyncio.create_task(wire.run()), asyncio.create_task(self.talk(wire))]
        try:
            await asyncio.wait(tasks, return_when=asyncio.FIRST_COMPLETED)
            why = '' if tasks[0].done() else str(tasks[1].exception() or tasks[1].result())
        finally:
            self.wire = None
            for task in tasks:
                task.cancel()
            child.kill()
            outlet.close()
            await asyncio.wait([*tasks, asyncio.create_task(child.ended.wait())], timeout=5)
            for link in self.links:
                link.stand_in()
        child.close()
        self.child, self.is_gone = None, child.status == NO_KEEPER
        why = 'no keeper runs there' if self.is_gone else why or \
            f'the relay ended with status {child.status} (cluster.run/{self.log}.log)'
        if self.is_gone and self.is_well:
            self.machine.died_at = now()
            self.machine.view.forget(self.name)
        self.set_state('pausing', why)
        self.machine.looked_for.set()
        await self.pause.after(now() - child.began)

    async def talk(self, wire: Wire) -> str:
        """Asks the keeper there each second, and ties the links; why that ended."""
        beat = {'command': 'beat', 'machine': self.config.own, 'digest': self.config.digest()}
        tying: dict[FarLink, asyncio.Task[None]] = {}
        told = await wire.ask(HELLO_LIMIT, beat)
        while not told['status']:
            self.heard_at, self.is_gone = now(), False
            self.set_state('connected')
            self.machine.view.take(self, told)
            for link in self.links:
                if not link.way.wire and (link not in tying or tying[link].done()):
                    tying[link] = asyncio.create_task(self.tie(wire, link))
            await asyncio.sleep(self.settings.peer_each)
            told = await wire.ask(self.settings.peer_limit, beat)
        return ' '.join(told['says'])

    async def tie(self, wire: Wire, link: FarLink) -> None:
        """Ties a lead here to a node there: what the lead writes goes out from now on."""
        limit = self.settings.flush_limit + self.settings.peer_limit
        told = await wire.ask(limit, {'command': 'tie', 'name': link.node, 'lead': link.lead})
        if not told['status'] and wire is self.wire:
            link.stand_aside()
            link.way.open(wire)
