"""Automatic failover: where no lead is active, or the active one hangs, another takes over."""
from typing import Optional

from .lead_keeper import STATE, LeadKeeper
from .machine import Machine
from .pipes import comes, now
from .view import Facts

# How long a lead may take for the line that makes no call, at last, before it is ended; how long
# another machine is left to act first; and how long nodes that are starting are waited for, in a
# cluster that had an active lead and in a new one.
STATE_LIMIT, LEFT_TO_OTHERS, START_PATIENCE, NEW_PATIENCE = 60.0, 4.0, 0.5, 5.0


class Automatic:
    """Looks at the active lead each half second, and where something ended, while `auto` is on."""

    def __init__(self, machine: Machine) -> None:
        self.machine, self.settings = machine, machine.settings
        self.last_done = self.last_roll = -1e9
        self.sick_since: Optional[float] = None

    async def run(self) -> None:
        while True:
            await comes(self.machine.looked_for.wait(), 0.5)
            self.machine.looked_for.clear()
            try:
                await self.look()
            except Exception as error:  # noqa: BLE001
                self.machine.note(f'fault in auto: {error!r}')

    async def look(self) -> None:
        """One look at the active lead, and what follows of it."""
        machine, active, lead = self.machine, self.machine.view.active(), self.machine.active
        if not machine.memory.get('auto')[0] or machine.is_ending:
            self.sick_since = None
            return
        if lead and (not active or active['name'] == lead.name) and not lead.reader.asked \
                and now() - lead.told_at > 0.9:
            await lead.ask(STATE, self.settings.lead_limit, STATE_LIMIT)
        if self.is_well(active) and machine.active is lead:
            self.sick_since = None
            if lead:
                await self.take_in(lead)
            return
        self.sick_since = self.sick_since or now()
        is_due = machine.died_at > self.last_done or \
            now() - self.last_done >= self.settings.failover_each
        successor = self.successor()
        if successor and is_due and machine.answering >= machine.config.majority \
                and not self.is_starting():
            await self.take_over(successor)

    def is_well(self, lead: Optional[Facts]) -> bool:
        """Whether a lead does what it is asked."""
        return lead is not None and lead['state'] == 'ready' and \
            lead['silent'] < self.settings.lead_limit

    def is_sick_for(self, seconds: float) -> bool:
        return self.sick_since is not None and now() - self.sick_since >= seconds

    def is_starting(self) -> bool:
        """Whether more nodes will answer in a moment, which a takeover that waits takes in."""
        patience = START_PATIENCE if self.machine.memory.get('active') else NEW_PATIENCE
        return not self.is_sick_for(patience) and \
            any(node.state in ('off', 'checking', 'starting') for node in self.machine.nodes)

    async def take_in(self, lead: LeadKeeper) -> None:
        """Has the active lead roll, which takes in the nodes that came back."""
        out = [str(number) for number, link in enumerate(lead.links, 1)
               if not link.stands_in and number not in lead.round]
        if out and now() - self.last_roll > 1:
            rolled = await lead.ask('roll', self.settings.line_limit)
            self.last_roll = now()
            self.machine.note(f'auto: roll, to take in node {" ".join(out)}: {rolled.results}')

    def successor(self) -> Optional[LeadKeeper]:
        """The lead here that is to take over now; one elsewhere is left time to do so."""
        machine, names = self.machine, [place.name for place in self.machine.config.leads]
        old = machine.memory.get('active')
        begin = names.index(old) + 1 if old in names else 0
        for name in names[begin:] + names[:begin]:
            told, lead = machine.view.told('lead', name), machine.leads.get(name)
            if told and self.is_well(told) and machine.view.is_fresh(told):
                if lead:
                    return lead
                is_able = told['answering'] >= machine.config.majority
                if is_able and not self.is_sick_for(LEFT_TO_OTHERS):
                    return None
        return None

    async def take_over(self, lead: LeadKeeper) -> None:
        """A lead takes over. Others here that hang are killed, so that nobody waits for them."""
        for old in self.machine.leads.values():
            if old is not lead and old.silent_for >= self.settings.lead_limit:
                self.machine.note(f'auto: {old.name} hangs for {old.silent_for:.0f} s: killed')
                old.kill()
        self.last_done = now()
        told = await self.machine.fail_over(lead, self.settings.line_limit)
        self.sick_since = None
        self.machine.note(f'auto: {lead.name} takes over: {told.results} {told.why}')
