"""What is known of the whole cluster: what keepers observed, here and elsewhere, and when."""
import time
from typing import Any, Optional

from .kept import Machine
from .peer import Peer
from .pipes import now
from .settings import DEGRADED, DONE, DOWN, WELL, Reply, answer

Facts = dict[str, Any]
# What is told of a node and of a lead of which nothing was heard.
NOTHING: dict[str, Facts] = {
    'node': {'pid': None, 'starts': 0, 'promise': None, 'last': 0, 'segments': 0, 'newest': '',
             'answered': None, 'listed': None, 'age': None},
    'lead': {'pid': None, 'starts': 0, 'last': '', 'active': False, 'epoch': 0, 'round': [],
             'acked': 0, 'queue': 0, 'silent': 0.0, 'told': None, 'age': None}}


class View:
    """Facts of nodes and leads elsewhere are `heard`, each with the time at which it was so."""

    def __init__(self, machine: Machine) -> None:
        self.machine, self.config = machine, machine.config
        self.heard: dict[tuple[str, str], tuple[float, Facts]] = {}
        self.places = {(place.kind, place.name): place for place in self.config.places}

    def told(self, kind: str, name: str) -> Optional[Facts]:
        """What is known of a node or a lead, with its age; nothing where nothing was heard."""
        if (kind, name) in self.machine.own:
            return {**self.machine.own[kind, name].told(), 'age': 0.0}
        at, facts = self.heard.get((kind, name), (0.0, {}))
        return {**facts, 'age': round(now() - at, 2)} if facts else None

    def beat(self) -> Reply:
        """What this keeper tells another: its own, and what it heard of others."""
        machine = self.machine
        facts = [(*key, told) for key in self.places if (told := self.told(*key))]
        return answer(DONE, clock=time.time(), deaths=machine.deaths, answering=machine.answering,
                      auto=machine.memory.get('auto'), facts=facts)

    def take(self, peer: Peer, beat: Reply) -> None:
        """Takes what another keeper told."""
        peer.clock_ahead = beat['clock'] - time.time()
        machine, memory = self.machine, self.machine.memory
        if peer.deaths not in (None, beat['deaths']):
            machine.died_at = now()
        peer.deaths = beat['deaths']
        if beat['auto'][1] > memory.get('auto')[1]:
            memory.put('auto', beat['auto'])
        for kind, name, facts in beat['facts']:
            host = self.places[kind, name].host
            if host == peer.name:
                facts['answering'] = beat['answering']
            if host != self.config.own:
                self.take_facts(kind, name, facts)
        active = self.active()
        # (a lead elsewhere that took over under a greater epoch ended what one here held)
        if active and active['name'] not in machine.leads and active['epoch'] > memory.get('epoch'):
            machine.note_active(active['name'], active['epoch'])

    def take_facts(self, kind: str, name: str, facts: Facts) -> None:
        """Takes what was told of a node or a lead, unless something younger was."""
        at, had = self.heard.get((kind, name), (0.0, NOTHING[kind]))
        if now() - facts['age'] >= at:
            self.heard[kind, name] = now() - facts['age'], facts
            was_there = had.get('state') == 'answering' and had['starts'] == facts['starts']
            if kind == 'node' and facts['state'] == 'answering' and not was_there:
                for lead in self.machine.leads.values():
                    lead.links[int(name) - 1].joined_at = now()
                self.machine.looked_for.set()

    def forget(self, host: str) -> None:
        """The keeper of a machine ended, and with it all that it kept."""
        self.heard = {key: at for key, at in self.heard.items() if self.places[key].host != host}

    def is_fresh(self, told: Optional[Facts]) -> bool:
        """Whether what is known is young enough to be believed."""
        settings = self.machine.settings
        return told is not None and told['age'] <= settings.peer_limit + settings.peer_each

    def active(self) -> Optional[Facts]:
        """The lead that is active: of those that told so lately the one of the greatest epoch."""
        told = [self.told('lead', place.name) or {} for place in self.config.leads]
        told = [lead for lead in told if lead and lead['active'] and self.is_fresh(lead)]
        told.sort(key=lambda lead: int(lead['epoch']))
        return told[-1] if told else None

    def status(self) -> Reply:
        """Everything, for `status` and `metrics`."""
        machine, memory, active = self.machine, self.machine.memory, self.active()
        told = {key: self._status_of(*key, active) for key in self.places}
        nodes = [facts for (kind, _), facts in told.items() if kind == 'node']
        leads = [facts for (kind, _), facts in told.items() if kind == 'lead']
        greatest = max(node['last'] for node in nodes)
        for node in nodes:
            node['lag'] = greatest - node['last'] if node['listed'] is not None else None
        answering = sum(node['state'] == 'answering' for node in nodes)
        is_whole = all(node['counts'] for node in nodes) and not memory.fault and \
            all(lead['state'] == 'ready' for lead in leads)
        status, health = (WELL, 'well') if is_whole else (DEGRADED, 'degraded')
        if not active or answering < self.config.majority:
            status, health = DOWN, 'down'
        return answer(status, *filter(None, [memory.fault]), health=health,
                      active=active and active['name'], auto=memory.get('auto')[0],
                      epoch=active['epoch'] if active else memory.get('epoch'),
                      answering=answering, majority=self.config.majority, nodes=nodes, leads=leads,
                      machines=[peer.told() for peer in machine.peers.values()],
                      machine=self.config.own, takeovers=machine.takeovers,
                      is_ending=machine.is_ending, is_down=memory.get('down'))

    def _status_of(self, kind: str, name: str, active: Optional[Facts]) -> Facts:
        """What is known of a node or a lead, and whether that is old."""
        known, number = self.told(kind, name), 'number' if kind == 'node' else 'name'
        told = known or {**NOTHING[kind], number: int(name) if kind == 'node' else name,
                         'folder': self.places[kind, name].folder}
        if not self.is_fresh(known):
            since = f' for {told["age"]:.0f} s' if known else ''
            told.update(state='unknown', why=f'no word from its machine{since}')
        if kind == 'lead':
            return {**told, 'active': bool(active and active['name'] == name)}
        counts = bool(active and told['state'] == 'answering' and int(name) in active['round'])
        if active and told['state'] == 'answering' and not counts:
            told['why'] = 'the active lead left it out: a `roll` takes it in'
        if told['answered'] is not None:
            told['answered'] = round(told['answered'] + told['age'], 2)
        return {**told, 'counts': counts}
