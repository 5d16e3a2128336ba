"""What each command does, and its status. What is another machine's is handed on to it."""
import asyncio
import time
from typing import Callable, Union

from .config import Place, load_config
from .kept import Kept
from .lead_keeper import LeadKeeper
from .machine import Machine
from .node_keeper import NodeKeeper
from .pipes import until
from .settings import DONE, NOT_GIVEN, REFUSED, UNKNOWN, USAGE, Reply, answer

LONGEST_WAIT, CLOCK_SLACK = 3600.0, 5.0
# The commands, and whose each is: of a node or a lead by name, of the active lead, or of the
# keeper that is asked; and those that are a line of a lead.
WHOSE = {'up': '', 'down': '', 'status': '', 'check': '', 'restart': '', 'auto': '', 'beat': '',
         'tie': 'node', 'failover': 'lead', 'tell': 'lead', 'checkpoint': 'lead',
         'log': 'active', 'trim': 'active', 'hold': 'node', 'release': 'node', 'adopt': 'node',
         'bounce': 'node', 'kill': 'kind'}
LINES = {'log': 'log {line}', 'trim': 'trim {extra}', 'tell': '{line}'}


class Refused(Exception):
    """A command that isn't done: its status, and why."""


class Commands:
    """The commands of one machine. Each answers within its `timeout`, and a little."""

    def __init__(self, machine: Machine) -> None:
        self.machine, self.restarting = machine, asyncio.Lock()

    async def do(self, asked: Reply) -> Reply:
        """Does a command; what is wrong with it is told."""
        name, machine, wire = str(asked.get('command')), self.machine, asked.pop('wire', None)
        try:
            if name not in WHOSE:
                raise Refused(USAGE, f'no command {name}')
            if machine.is_ending and name not in ('down', 'status', 'beat'):
                raise Refused(NOT_GIVEN, 'the cluster is going down')
            seconds = float(asked.get('timeout') or machine.settings.line_limit)
            asked['timeout'] = seconds = min(max(seconds, 0.1), LONGEST_WAIT)
            whose = self.find(WHOSE[name], asked)
            if isinstance(whose, Place):
                return await self.hand_on(whose.host, asked, seconds)
            if isinstance(whose, LeadKeeper) and name in LINES:
                line = LINES[name].format(**{'extra': 0, **asked})
                return (await whose.ask(line, seconds)).reply()
            if isinstance(whose, NodeKeeper) and name == 'tie':
                is_tied = await whose.attach(str(asked['lead']), wire)
                return answer(DONE if is_tied else NOT_GIVEN)
            told: Reply = await getattr(self, name)(whose or asked, seconds)
            return told
        except Refused as error:
            return answer(*error.args, outcome='not given')
        except OSError as error:
            return answer(REFUSED, f'{error.filename or "its folder"}: {error.strerror or error}')
        except (ValueError, TypeError, KeyError) as error:
            return answer(USAGE, f'a word is missing or wrong: {error}')

    def find(self, whose: str, asked: Reply) -> Union[Kept, Place, None]:
        """The node or the lead that has to do a command, or its place where that is elsewhere."""
        machine, name = self.machine, str(asked.get('name'))
        kind = str(asked.get('kind')) if whose == 'kind' else whose
        if whose == 'active':
            active = machine.view.active()
            if not active:
                raise Refused(NOT_GIVEN, 'no lead is active: `failover NAME` makes one so')
            kind, name = 'lead', active['name']
        found = machine.own.get((kind, name)) or machine.view.places.get((kind, name))
        if whose and not found:
            names = ' '.join(name for other, name in machine.view.places if other == kind)
            raise Refused(USAGE, f'no {kind} `{name}`: those of cluster.conf are {names}')
        return found

    async def hand_on(self, host: str, asked: Reply, seconds: float) -> Reply:
        """Has another machine do a command. One that was handed on already isn't once more."""
        peer = self.machine.peers[host]
        if asked.get('handed_on'):
            raise Refused(NOT_GIVEN, 'no lead is active here: it moved meanwhile; give it again')
        if not peer.wire or not peer.is_well:
            raise Refused(NOT_GIVEN, f'no way to the machine {host}: {peer.state} {peer.why}')
        return await peer.wire.ask(seconds + 2, {**asked, 'handed_on': True})

    async def up(self, asked: Reply, seconds: float) -> Reply:
        """Wakes all, and waits until all here run, and a lead is active where auto is on."""
        machine, own = self.machine, self.machine.own.values()
        machine.memory.put('down', False)
        if 'on' in asked:
            await self.auto(asked, seconds)
        for kept in machine.kept:
            kept.wake()
        machine.looked_for.set()

        def is_settled() -> bool:
            is_led = machine.view.active() or not machine.memory.get('auto')[0] or \
                machine.answering < machine.config.majority
            return bool(is_led) and all(kept.is_well or kept.state in ('held', 'lost', 'refused')
                                        for kept in own)
        await until(is_settled, seconds)
        says = [f'{kept.kind} {kept.name} is {kept.state}: {kept.why}' for kept in own
                if not kept.is_well]
        if load_config(machine.top) != machine.config:
            says.append('cluster.conf was changed since the keeper began: `down` and `up` take the '
                        'change in')
        active = machine.view.active()
        who = f'lead {active["name"]} is active' if active else 'no lead is active'
        return answer(REFUSED if says else DONE, *says, up=f'up: {len(machine.nodes)} nodes, '
                      f'{len(machine.leads)} leads; {who}')

    async def status(self, asked: Reply, seconds: float) -> Reply:
        return self.machine.view.status()

    async def check(self, asked: Reply, seconds: float) -> Reply:
        """What is wrong with other machines, as far as this keeper knows."""
        peers = self.machine.peers.values()
        says = [f'machine {peer.name}: {peer.state}: {peer.why}' for peer in peers
                if not peer.is_well]
        says += [f'machine {peer.name}: its clock is {peer.clock_ahead:.0f} s ahead: set the clocks'
                 for peer in peers if abs(peer.clock_ahead) > CLOCK_SLACK]
        return answer(REFUSED if says else DONE, *says)

    async def auto(self, asked: Reply, seconds: float) -> Reply:
        """Said here, it is told to the other machines with the next beat."""
        self.machine.memory.put('auto', [bool(asked['on']), time.time()])
        return answer(DONE, *(f'{peer.name} will hear of it once there is a way'
                              for peer in self.machine.peers.values() if not peer.is_well))

    async def down(self, asked: Reply, seconds: float) -> Reply:
        self.machine.memory.put('down', True)
        says = await self.machine.end()
        self.machine.is_last.set()
        return answer(UNKNOWN if says else DONE, *says)

    async def failover(self, lead: LeadKeeper, seconds: float) -> Reply:
        return (await self.machine.fail_over(lead, seconds)).reply()

    async def checkpoint(self, lead: LeadKeeper, seconds: float) -> Reply:
        """The lead reads the log first. One that was overtaken unawares learns it by a `roll`."""
        read = await lead.ask('tail', seconds)
        if read.results == ['= active'] and not lead.is_active:
            await lead.ask('roll', seconds)
            read = await lead.ask('tail', seconds)
        if read.results == ['= active']:
            read.why = 'no image was saved: a lead that is active saves none'
        if not read.is_good:
            return read.reply()
        saved = await lead.ask('checkpoint', seconds)
        return {**saved.reply(), 'results': read.results + saved.results}

    async def kill(self, kept: Kept, seconds: float) -> Reply:
        return answer(DONE) if kept.kill() else answer(REFUSED, 'it has no process')

    async def bounce(self, node: NodeKeeper, seconds: float) -> Reply:
        """Ends a node and waits until it answers again."""
        before = node.starts
        await node.end_child()
        return await self.await_node(node, lambda: node.starts > before and node.is_well, seconds)

    async def hold(self, node: NodeKeeper, seconds: float) -> Reply:
        self.machine.memory.note('held', node.name, True)
        await node.end_child()
        return await self.await_node(node, lambda: node.state == 'held', seconds)

    async def release(self, node: NodeKeeper, seconds: float) -> Reply:
        self.machine.memory.note('held', node.name, False)
        return await self.await_node(node, lambda: node.is_well, seconds)

    async def await_node(self, node: Kept, is_so: Callable[[], bool], most: float) -> Reply:
        """Waits until something is so of a node, and tells what it is where that isn't in time."""
        node.pause.wake()
        if await until(is_so, most):
            return answer(DONE)
        return answer(REFUSED, f'node {node.name} is {node.state}: {node.why}')

    async def adopt(self, node: NodeKeeper, seconds: float) -> Reply:
        """Takes the folder that stands there as the node's own."""
        if node.child:
            raise Refused(USAGE, f'node {node.name} runs: it has its folder already')
        await node.adopt()
        return answer(DONE)

    async def restart(self, asked: Reply, seconds: float) -> Reply:
        """Restarts one node after the other, on whatever machine, each once all others are back."""
        if self.restarting.locked():
            raise Refused(NOT_GIVEN, 'the nodes are being restarted already')
        async with self.restarting:
            for place in self.machine.config.nodes:
                why = await self.restart_node(place.name, seconds)
                if why:
                    return answer(REFUSED, f'node {place.name} {why}')
        return answer(DONE)

    async def restart_node(self, name: str, seconds: float) -> str:
        """Restarts a node, and has the active lead take it in; what kept it from that."""
        machine, more = self.machine, {'timeout': seconds}

        def is_back(node: str, *states: str) -> bool:
            told = machine.view.told('node', node)
            return told is not None and told['state'] in (*states, 'answering')
        if is_back(name, 'held') and not is_back(name):
            return ''
        if not await until(lambda: all(place.name == name or is_back(place.name, 'held')
                                       for place in machine.config.nodes), seconds):
            return 'isn\'t restarted: another one doesn\'t answer'
        told = await self.do({'command': 'bounce', 'name': name, **more})
        if told['status'] != DONE or not await until(lambda: is_back(name), seconds):
            return f'didn\'t come back: {" ".join(told["says"])}'
        active = machine.view.active()
        if not active:
            return ''
        told = await self.do({'command': 'tell', 'name': active['name'], 'line': 'roll', **more})
        failed = ' '.join(told['results'] + told['says'])
        return f'runs again, and the roll failed: {failed}' if told['status'] else ''

    async def beat(self, asked: Reply, seconds: float) -> Reply:
        """Another keeper asks what is known here: its cluster.conf has to say the same."""
        config, name = self.machine.config, asked['machine']
        if name not in self.machine.peers:
            raise Refused(USAGE, f'{config.own} has another machine by the name {name}, or none')
        if asked['digest'] != config.digest():
            raise Refused(USAGE, f'cluster.conf isn\'t the same on {config.own}')
        return self.machine.view.beat()
