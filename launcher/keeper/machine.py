"""All nodes and leads of this machine, and its ways to others."""
import asyncio
import shutil
import sys
import time
from pathlib import Path
from typing import IO, Optional

from .config import Config, Place
from .emulated import Link
from .kept import Kept
from .lead_keeper import Asked, LeadKeeper
from .node_keeper import NodeKeeper
from .peer import FarLink, Listener, Peer, words_to_listen
from .pipes import now, until
from .remembered import Memory
from .settings import Settings, open_log
from .view import View


class Machine:
    """What is kept in a life of the keeper. `deaths` counts ends of nodes and leads by themselves;
    `died_at` is when one ended last; `looked_for` has automatic failover look at once."""

    def __init__(self, top: Path, config: Config, settings: Settings) -> None:
        self.top, self.config, self.settings = top, config, settings
        self.run, self.pipes = top / 'cluster.run', top / 'cluster.run/pipes'
        self.memory = Memory(self.run / 'memory.json')
        shutil.rmtree(self.pipes, ignore_errors=True)
        self.pipes.mkdir(mode=0o700)
        self.deaths, self.takeovers, self.died_at, self.until = 0, 0, 0.0, until
        self.looked_for, self.is_last, self.is_ending = asyncio.Event(), asyncio.Event(), False
        self.nodes = [NodeKeeper(self, place) for place in config.nodes if config.is_here(place)]
        self.peers = {line.name: Peer(self, line) for line in config.others}
        self.leads = {place.name: LeadKeeper(self, place, self.links_of(place.name))
                      for place in config.leads if config.is_here(place)}
        own: list[Kept] = [*self.nodes, *self.leads.values()]
        self.own: dict[tuple[str, str], Kept] = {(kept.kind, kept.name): kept for kept in own}
        self.kept: list[Kept] = [*self.own.values(), *self.peers.values()]
        if words_to_listen(config):
            self.kept.append(Listener(self, Place('', '', ''), 'listen'))
        self.tasks: list[asyncio.Task[None]] = []
        self.view: View = View(self)

    def links_of(self, lead: str) -> list[Link]:
        """The pipes of a lead of this machine to all nodes, here and elsewhere."""
        client, links = self.config.client_of(lead), []
        own = {node.name: node.links[client] for node in self.nodes}
        for place in self.config.nodes:
            if place.name not in own:
                folder = self.pipes / f'far{place.name}'
                folder.mkdir(exist_ok=True)
                link = FarLink(folder, client, place.name, lead)
                self.peers[place.host].links.append(link)
            links.append(own.get(place.name) or link)
        return links

    def note(self, text: str) -> None:
        """Writes a line into the keeper's log; a full disk keeps nothing from going on."""
        try:
            print(time.strftime('%Y-%m-%d %H:%M:%S'), text, file=sys.stderr, flush=True)
        except OSError:
            pass

    def open_log(self, name: str) -> IO[bytes]:
        """The log of one child, opened at each of its starts."""
        try:
            return open_log(self.run / f'{name}.log')
        except OSError as error:
            self.note(f'{name}.log can\'t be written: {error.strerror}')
            return open('/dev/null', 'wb', buffering=0)

    def start(self) -> None:
        self.tasks = [asyncio.create_task(kept.keep()) for kept in self.kept]

    def note_death(self) -> None:
        """A node or a lead ended by itself."""
        self.deaths += 1
        self.died_at = now()
        self.looked_for.set()

    def note_active(self, name: str, epoch: int) -> None:
        """Notes that a lead took over; what others hold is over, since the nodes refuse them."""
        self.memory.put('epoch', epoch)
        self.memory.put('active', name)
        for lead in self.leads.values():
            lead.is_active = lead.name == name

    @property
    def answering(self) -> int:
        """How many nodes a lead here can reach, as far as is known."""
        near = ['', self.config.own, *(peer.name for peer in self.peers.values() if peer.is_well)]
        told = [self.view.told('node', p.name) for p in self.config.nodes if p.host in near]
        return sum(node is not None and node['state'] == 'answering' for node in told)

    @property
    def active(self) -> Optional[LeadKeeper]:
        """The lead here that is active, as far as it told."""
        return next((lead for lead in self.leads.values() if lead.is_active), None)

    async def fail_over(self, lead: LeadKeeper, seconds: float) -> Asked:
        """Has a lead take over, as often as it is aborted and time is left."""
        end = now() + seconds
        lead.wake()
        while True:
            await until(lambda: self.answering >= self.config.majority and lead.is_well,
                        end - now())
            asked = await lead.ask('takeover', max(0.1, end - now()), self.settings.takeover_limit)
            is_taken = asked.outcome == 'told' and lead.is_active
            is_purged = any(' purged ' in result for result in asked.results)
            if is_taken or is_purged or now() + 0.3 >= end:
                return asked
            await asyncio.sleep(0.2)

    async def end(self) -> list[str]:
        """Ends leads, and then nodes; which are still there, since they couldn't be ended."""
        self.is_ending = True
        for node in self.nodes:
            node.is_wanted = False
        await asyncio.gather(*(lead.stop() for lead in self.leads.values()))
        await asyncio.gather(*(kept.stop() for kept in self.kept))
        for lead in self.leads.values():
            lead.refuse_all(f'the lead {lead.name} was ended')
        for task in self.tasks[len(self.own):]:
            task.cancel()
        await asyncio.wait(self.tasks, timeout=5)
        return [f'{kept.place} hasn\'t ended' for kept in self.own.values() if kept.child]
