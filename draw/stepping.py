"""The trial of a page that one steps through, in a browser."""
from __future__ import annotations

import json
import re
import time
from pathlib import Path
from typing import Any

from browsing import Trial

CALL, LATE, OPERATOR, RESULT = range(4)
KEYS_ONCE = 300
KINDS = ('takeover', 'loss', 'refusal')

LOOKS = """
window.__texts = (list, what) => [...list.querySelectorAll(what)].map(e => e.textContent)
window.__look = () => ({
  at: +/\\d+/.exec(document.getElementById('link').textContent)[0],
  says: document.getElementById('says').textContent, means: document.getElementById('means').textContent,
  beyond: document.documentElement.scrollWidth - innerWidth,
  nodes: [...document.getElementById('nodes').children].map(card => ({
    name: card.querySelector('h2').textContent, promise: card.querySelector('.chip').textContent,
    segments: __texts(card, '.segment h3').slice(-3), edits: __texts(card, '.edit i').length, marked: card.querySelectorAll('.new').length }))
})
window.__took = (keys) => keys.map(key => {
  const begun = performance.now()
  dispatchEvent(new KeyboardEvent('keydown', { key }))
  document.body.offsetHeight
  return performance.now() - begun
})
null
"""


class States:
    """The nodes' states by the lines of `./qjm states`, as a page is to show them after each of its steps."""

    def __init__(self, lines: list[dict[str, Any]], steps: list[list[Any]]) -> None:
        count = lines[0]['nodes']
        waiting: list[list[dict[str, Any]]] = [[] for _ in range(count)]
        for line in lines[1:]:
            if 'node' in line and line['way'] != 'dropped':
                waiting[line['node'] - 1].append(line)
        nodes = [self.shown({'promised': 0, 'up': True, 'open': -1}, {}) for _ in range(count)]
        states: list[dict[str, Any]] = [{'promised': 0, 'up': True, 'open': -1} for _ in range(count)]
        segments: list[dict[int, dict[str, Any]]] = [{} for _ in range(count)]
        self.after = [list(nodes)]
        for kind, _, number, _, answer, *_ in steps:
            if kind != RESULT and answer >= 0:
                k = number - 1
                self.take(waiting[k].pop(0), states[k], segments[k])
                nodes[k] = self.shown(states[k], segments[k])
            self.after.append(list(nodes))
        self.left = sum(map(len, waiting))

    @staticmethod
    def take(line: dict[str, Any], state: dict[str, Any], segments: dict[int, dict[str, Any]]) -> None:
        """Takes what an event changed of its node."""
        state.update(line.get('state', {}))
        if 'segment' in line:
            segments[line['segment']['start']] = line['segment']
        for start in line.get('removed', []):
            del segments[start]

    @staticmethod
    def shown(state: dict[str, Any], segments: dict[int, dict[str, Any]]) -> tuple[bool, int, list[str]]:
        """Whether a node is up, its promise, and its newest segments in words."""
        told = []
        for start in sorted(segments)[-3:]:
            one = segments[start]
            kind = 'final' if one['final'] else 'accepted' if one['accepted'] else 'open' if state['open'] == start else 'in progress'
            reach = f'segment {start}' if one['end'] < start else str(start) if one['end'] == start else f'{start}–{one["end"]}'
            told.append(f'{reach}{kind}, epoch {one["epoch"]}')
        return state['up'], state['promised'], told


class StepsTrial(Trial):
    """A page that one steps through."""
    LOOKS = LOOKS

    def __init__(self, *words: Any) -> None:
        super().__init__(*words)
        data = self.browser.value("document.getElementById('data').textContent")
        self.data = json.loads(data)
        self.steps = self.data['steps']
        self.last = len(self.steps)
        beside = self.path.with_suffix('.states')
        self.states = States([json.loads(line) for line in beside.read_text().splitlines()], self.steps) if beside.exists() else None

    # ## What is expected of a step

    def look(self) -> dict[str, Any]:
        """What the page shows."""
        return self.browser.value('__look()')

    def hold(self, number: int, way: str) -> None:
        """Holds what is shown to a step: where it is, that it says something, and the states of all nodes."""
        look = self.look()
        if look['at'] != number:
            self.wrong.append(f'{way}: step {look["at"]}, and not {number}')
            return
        if not look['says'] or '<' in look['says'] or 'undefined' in look['says'] + look['means']:
            self.wrong.append(f'{way} at step {number}: it says {look["says"]!r} {look["means"]!r}')
        if look['beyond'] > 0:
            self.wrong.append(f'{way} at step {number}: {look["beyond"]} points beyond the width')
        if self.states:
            shown = [self.shown(node) for node in look['nodes']]
            if shown != self.states.after[number]:
                self.wrong.append(f'{way} at step {number}: shown {shown}, and not {self.states.after[number]}')

    @staticmethod
    def shown(node: dict[str, Any]) -> tuple[bool, int, list[str]]:
        """A node's card, as States tells it."""
        promise = re.search(r'\d+', node['promise'])
        return 'down' not in node['name'], int(promise[0]) if promise else 0, node['segments']

    def marks(self, kind: str) -> list[int]:
        """The steps of a kind, by the page's data."""
        texts, found, before = self.data['texts'], [], None
        for number, (what, actor, node, asked, answer, heard, *_) in enumerate(self.steps, 1):
            told = '' if what == RESULT else texts[heard] if heard >= 0 else texts[answer]
            request = texts[asked]
            is_first = request == 'state' and not (before and before[0] == actor and before[1] == request and before[2] < node)
            if kind == 'takeover' and what == CALL and is_first:
                found.append(number)
            if kind == 'loss' and (what == CALL and told in ('dropped', 'muted', 'silent') or what == OPERATOR and request == 'kill' and told == 'done'):
                found.append(number)
            if kind == 'refusal' and what == CALL and told.startswith('refused') and not (request.startswith('read') and told.startswith('refused 15')):
                found.append(number)
            before = (actor, request, node) if what == CALL else None
        return found

    # ## The trials

    def try_page(self, shots: Path | None) -> None:
        """All controls, each step by keys, the address, names, and how long it takes."""
        self.expect('what the states have beyond the steps', self.states.left if self.states else 0, 0)
        self.hold(0, 'opened')
        self.keep(shots, 'begin')
        if self.last <= KEYS_ONCE:
            self.try_keys()
            self.try_jumps()
        self.try_buttons()
        self.try_slider()
        self.try_playing()
        self.try_address()
        self.try_tabs()
        self.try_names()
        self.try_stillness()
        self.try_speed()
        self.keep(shots, 'end')

    def keep(self, shots: Path | None, what: str) -> None:
        """Keeps what is seen."""
        if shots:
            self.browser.keep(shots / f'{self.path.stem}-{self.width}-{what}')

    def try_keys(self) -> None:
        """The keyboard alone leads through all steps, forth and back."""
        for number in range(1, self.last + 1):
            self.browser.press('ArrowRight')
            self.hold(number, 'the arrow to the right')
        self.browser.press('ArrowRight')
        self.hold(self.last, 'the arrow to the right at the end')
        for number in range(self.last - 1, -1, -1):
            self.browser.press('ArrowLeft')
            self.hold(number, 'the arrow to the left')
        self.browser.press('End')
        self.hold(self.last, 'End')
        self.browser.press('Home')
        self.hold(0, 'Home')

    def try_jumps(self) -> None:
        """Each jump leads to the next step of its kind, and is off behind the last one."""
        for kind in KINDS:
            self.browser.press('Home')
            for number in self.marks(kind):
                self.click(f'to-{kind}')
                self.hold(number, f'the jump to the next {kind}')
            self.expect(f'whether the jump to the next {kind} is off then', self.browser.value(f"document.getElementById('to-{kind}').disabled"), True)

    def click(self, name: str) -> None:
        """Taps or clicks a button in its middle."""
        place = self.browser.value(
            f"(b => [(b.left + b.right) / 2, (b.top + b.bottom) / 2])(document.getElementById('{name}').getBoundingClientRect())")
        before = self.browser.value("document.getElementById('link').textContent + document.getElementById('play').ariaLabel")
        self.browser.tap(*place, self.is_narrow)
        # (what a touch does comes a moment after it)
        end = time.monotonic() + 2
        while time.monotonic() < end:
            if self.browser.value("document.getElementById('link').textContent + document.getElementById('play').ariaLabel") != before:
                return
            time.sleep(0.01)
        self.wrong.append(f'the button {name} does nothing')

    def try_buttons(self) -> None:
        """Each button that moves a step, a line of the script, or to an end."""
        lines = [at for at, _ in self.data['headings']]
        self.browser.press('Home')
        for name, wanted in (('on', 1), ('on', 2), ('back', 1), ('last', self.last), ('first', 0), ('line-on', (lines or [self.last])[0])):
            self.click(name)
            self.hold(wanted, f'the button {name}')
        if len(lines) > 2:
            self.click('line-on')
            self.hold(lines[1], 'the button line-on')
            self.click('line-back')
            self.hold(lines[0], 'the button line-back')
        self.expect('buttons that are too small for a finger', self.browser.value(
            "[...document.querySelectorAll('button, select')].filter(e => e.offsetHeight < 24 || e.offsetWidth < 24).length"), 0)

    def try_slider(self) -> None:
        """The slider leads anywhere, by pointing and by keys."""
        middle = self.last // 2
        self.browser.value(f"(s => {{ s.value = {middle}; s.dispatchEvent(new Event('input')) }})(document.getElementById('slider'))")
        self.hold(middle, 'the slider')
        self.browser.value("document.getElementById('slider').focus()")
        self.browser.press('ArrowRight')
        self.hold(min(middle + 1, self.last), 'a key at the slider')
        told = self.browser.value("document.getElementById('slider').getAttribute('aria-valuetext')")
        self.expect('what the slider tells', told.startswith(f'step {min(middle + 1, self.last)} of {self.last}'), True)
        self.browser.value('document.activeElement.blur()')

    def try_playing(self) -> None:
        """Space plays, and stops; playing ends at the last step."""
        self.browser.press('Home')
        self.browser.value("(s => { s.value = s.options[s.options.length - 1].value; s.dispatchEvent(new Event('change')) })(document.getElementById('speed'))")
        self.browser.press(' ')
        self.wait_until(3)
        self.browser.press(' ')
        stopped = self.look()['at']
        time.sleep(0.3)
        self.expect('where it stays once it is stopped', self.look()['at'], stopped)
        self.hold(stopped, 'stopped')
        self.browser.value(f"location.hash = 'step={max(self.last - 3, 0)}'")
        self.wait_until(max(self.last - 3, 0))
        self.click('play')
        self.wait_until(self.last)
        time.sleep(0.2)
        self.expect('what the button offers at the end', self.browser.value("document.getElementById('play').ariaLabel"), 'Play')

    def wait_until(self, number: int) -> None:
        """Waits until the page is at a step, or past it."""
        end = time.monotonic() + 5
        while self.look()['at'] < number and time.monotonic() < end:
            time.sleep(0.02)
        self.expect(f'whether step {number} comes by itself', self.look()['at'] >= number, True)

    def try_address(self) -> None:
        """The address names the step, and leads to it; so does a link in a sentence."""
        wanted = min(5, self.last)
        self.browser.value(f"location.hash = 'step={wanted}'")
        self.wait_until(wanted)
        self.hold(wanted, 'the address')
        self.browser.press('ArrowLeft')
        time.sleep(0.5)
        self.expect('the address', self.browser.value('location.hash'), f'#step={wanted - 1}')
        for number in self.marks('refusal')[-1:]:
            self.browser.value(f"location.hash = 'step={number}'")
            self.wait_until(number)
            link = self.browser.value("(a => a && a.hash)(document.querySelector('#says a'))")
            if link:
                self.browser.value("document.querySelector('#says a').click()")
                time.sleep(0.1)
                self.hold(int(link[6:]), 'the link of a sentence')

    def try_tabs(self) -> None:
        """Tab leads to each control that is on, and Enter does what a tap on it does."""
        self.browser.press('Home')
        self.browser.press('ArrowRight')
        wanted = set(self.browser.value("[...document.querySelectorAll('#controls button, #controls select, #controls input, #link')]"
                                        ".filter(e => !e.disabled && !e.hidden).map(e => e.id)"))
        found: set[str] = set()
        for _ in range(3 * len(wanted)):
            self.browser.press('Tab')
            found.add(self.browser.value('document.activeElement.id'))
        self.expect('controls that Tab leads to', sorted(found & wanted), sorted(wanted))
        self.browser.value("document.getElementById('on').focus()")
        self.browser.press('Enter')
        self.hold(2, 'Enter at the button on')
        self.browser.value('document.activeElement.blur()')

    def try_names(self) -> None:
        """What one can choose has a name for a screen reader, and what happens is told to it."""
        nodes = [node for node in self.browser.ask('Accessibility.getFullAXTree')['nodes'] if not node['ignored']]
        names: dict[str, list[str]] = {}
        for node in nodes:
            names.setdefault(node['role']['value'], []).append(node.get('name', {}).get('value', ''))
        for role, least in (('button', 10), ('slider', 1), ('combobox', 1), ('heading', 1 + self.data['nodes']), ('list', 2)):
            found = names.get(role, [])
            self.expect(f'a {role} with a name', len(found) >= least and all(name.strip() or role == 'list' for name in found), True)
        self.expect('what is told as it changes', self.browser.value("document.querySelector('[aria-live=polite] #says') !== null"), True)

    def try_stillness(self) -> None:
        """Nothing moves for a reader who wants it so."""
        self.browser.ask('Emulation.setEmulatedMedia', features=[{'name': 'prefers-reduced-motion', 'value': 'reduce'}])
        self.browser.press('Home')
        for _ in range(min(6, self.last)):
            self.browser.press('ArrowRight')
            self.expect('what moves', self.browser.value('document.getAnimations().length'), 0)
        self.browser.ask('Emulation.setEmulatedMedia', features=[])

    def try_speed(self) -> None:
        """It opens within three seconds, and each step takes at most 50 ms, forth, back and to the ends."""
        # (of each kind the middle one: a single step may have waited for a busy machine)
        ways = [['End', 'Home'] * 5, ['ArrowRight'] * 21, ['End', *['ArrowLeft'] * 20]]
        taken = max(sorted(self.browser.value(f'__took({json.dumps(keys)})'))[len(keys) // 2] for keys in ways)
        self.expect('whether it opens within 3 s', self.taken <= 3, True)
        self.expect('whether a step takes at most 50 ms', taken <= 50, True)
        if self.last > KEYS_ONCE:
            print(f'{self.path.name} at {self.width}: opened in {self.taken:.2f} s, a step in {taken:.0f} ms')


class LiveTrial(Trial):
    """A page over a running cluster, with the file beside it that it reads."""
    LOOKS = LOOKS

    def is_own(self, address: str) -> bool:
        """It reads the file beside it, and nothing else."""
        return super().is_own(address) or address.partition('?')[0] == self.path.as_uri() + '.js'

    def place(self) -> str:
        """Where it is."""
        return self.browser.value("document.getElementById('link').textContent")

    def wait_for_place(self, wanted: str) -> None:
        """Waits until it is somewhere."""
        end = time.monotonic() + 5
        while wanted not in self.place() and time.monotonic() < end:
            time.sleep(0.05)
        self.expect('where it is', wanted in self.place(), True)

    def try_page(self, shots: Path | None) -> None:
        """It shows the newest status, steps back, follows a new one where the newest is shown, and stays else."""
        beside = Path(f'{self.path}.js')
        text = beside.read_text()
        try:
            self.wait_for_place('3 of 3')
            self.expect('how wide it is', self.browser.value('document.documentElement.scrollWidth - innerWidth'), 0)
            says = [self.says()]
            for _ in range(3):
                self.browser.press('ArrowLeft')
                says.append(self.says())
            self.expect('what it says, from the last to the first', [bool(text) for text in says], [True] * 4)
            self.expect('what it says of a keeper that is silent', says[1], 'No keeper answers here.')
            if shots:
                self.browser.keep(shots / f'{self.path.stem}-{self.width}')
            status = text.splitlines()[-2]
            later = status.replace('"epoch": 2', '"epoch": 3')
            beside.write_text(text.replace(status, f'{status},\n{later}'))
            self.wait_for_place('0 of 4')
            self.browser.press('End')
            self.expect('where the end is', '4 of 4' in self.place(), True)
            self.expect('what it says of another epoch', self.says(), 'Lead b is active now, under epoch 3.')
        finally:
            beside.write_text(text)

    def says(self) -> str:
        """The sentence that it shows."""
        return self.browser.value("document.getElementById('says').textContent")
