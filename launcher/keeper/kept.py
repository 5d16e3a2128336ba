"""What a keeper keeps, each a process that is known by handle alone, and dies with the keeper."""
import asyncio
import ctypes
import os
import signal
import subprocess
from pathlib import Path
from typing import IO, TYPE_CHECKING, Any, Callable, Optional, Sequence

from .config import Place
from .pipes import comes, now

if TYPE_CHECKING:
    from .machine import Machine
else:
    Machine = object

_LIBC = ctypes.CDLL(None, use_errno=True)
_PR_SET_PDEATHSIG = 1
# (the child enters the folder: one that hangs must not stop the keeper, which waits for the exec)
_ENTER = ['/bin/sh', '-c', 'cd -- "$0" && exec "$@"']


def _tie_to(keeper: int) -> Callable[[], None]:
    """What a child does before its program. (The keeper forks in its first thread.)"""
    def tie() -> None:
        signal.signal(signal.SIGXFSZ, signal.SIG_IGN)
        _LIBC.prctl(_PR_SET_PDEATHSIG, signal.SIGKILL, 0, 0, 0)
        if os.getppid() != keeper:
            os._exit(137)
    return tie


class Child:
    """A process, from its start to its end. `ended` is set once it was waited for."""

    def __init__(self, words: Sequence[str], folder: Path, errors: IO[bytes]) -> None:
        self.process: subprocess.Popen[Any] = subprocess.Popen(
            [*_ENTER, str(folder), *words], cwd='/', stdin=subprocess.PIPE, stdout=subprocess.PIPE,
            stderr=errors, preexec_fn=_tie_to(os.getpid()), start_new_session=True)
        assert self.process.stdin and self.process.stdout
        self.stdin, self.stdout = self.process.stdin, self.process.stdout
        self.input, self.output = self.stdin.fileno(), self.stdout.fileno()
        for fd in (self.input, self.output):
            os.set_blocking(fd, False)
        self.pid, self.status = self.process.pid, -1
        self.handle = os.pidfd_open(self.pid)
        self.ended, self.began = asyncio.Event(), now()
        asyncio.get_running_loop().add_reader(self.handle, self._end)

    def _end(self) -> None:
        asyncio.get_running_loop().remove_reader(self.handle)
        status = self.process.wait()
        self.status = status if status >= 0 else 128 - status
        os.close(self.handle)
        self.ended.set()

    def write(self, data: bytes) -> bool:
        """Writes a few bytes to its input; false where it has none any more, or no room."""
        try:
            return not self.stdin.closed and os.write(self.input, data) == len(data)
        except OSError:
            return False

    def kill(self) -> None:
        if not self.ended.is_set():
            signal.pidfd_send_signal(self.handle, signal.SIGKILL)

    async def end(self, seconds: float) -> None:
        """Ends its input, and kills it where it doesn't end of that in so many seconds."""
        self.stdin.close()
        if not await comes(self.ended.wait(), seconds):
            self.kill()
            await comes(self.ended.wait(), 5)

    def close(self) -> None:
        """Lets its pipes go, once it ended."""
        self.stdin.close()
        self.stdout.close()

    def done_so_far(self) -> list[str]:
        """The time and bytes that it used: where these stand still it hangs, or waits."""
        try:
            times = Path(f'/proc/{self.pid}/stat').read_text().rsplit(')', 1)[1].split()[11:13]
            return times + Path(f'/proc/{self.pid}/io').read_text().split()[1:4:2]
        except OSError:
            return []

    async def wait_while_busy(self, event: asyncio.Event, step: float, most: float) -> bool:
        """Whether an event came in time, and before a step in which the process did nothing."""
        end, done, before = now() + most, self.done_so_far(), ['']
        while (left := end - now()) > 0 and done != before:
            if await comes(event.wait(), min(step, left)):
                return True
            before, done = done, self.done_so_far()
        return False


class Pause:
    """How long to wait before something is started again: longer each time it ended early."""

    def __init__(self, least: float = 0.1, most: float = 10.0, long_life: float = 30.0) -> None:
        self.least, self.most, self.long_life, self.next = least, most, long_life, least
        self.woken = asyncio.Event()

    def wake(self) -> None:
        """Starts again now."""
        self.next = self.least
        self.woken.set()

    async def after(self, life: float) -> None:
        """Waits, where the last life was so long."""
        seconds = self.least if life >= self.long_life else self.next
        self.next = min(self.most, seconds * 2)
        await self.sleep(seconds)

    async def sleep(self, seconds: Optional[float]) -> None:
        """Waits until it is woken, at most so long."""
        await comes(self.woken.wait(), seconds)
        self.woken.clear()


# What an end's status says, beside the process's own words.
REASONS = {
    1: 'its words are wrong', 3: 'its files are damaged: "A damaged file" in docs/OPERATING.md',
    5: 'its files have findings: "A damaged file" in docs/OPERATING.md',
    7: 'its results couldn\'t be told', 8: 'its folder couldn\'t be read or written, as where the '
    'disk is full: make room, or mend what the log names', 9: 'there wasn\'t memory enough',
    70: 'the program isn\'t built', 75: 'another process has the folder', 127: 'no program there',
    137: 'it was killed'}


class Kept:
    """Something that is kept until it isn't wanted any more. `state` says what it does now, `well`
    where all is well, and `why` more of it; `log` is the name of its log."""
    kind, well, reasons = '', '', REASONS

    def __init__(self, machine: Machine, place: Place, log: str) -> None:
        self.machine, self.settings, self.place, self.log = machine, machine.settings, place, log
        self.name, self.folder = place.name, machine.top / place.path
        self.state, self.why, self.starts, self.is_wanted = 'off', '', 0, True
        self.child: Optional[Child] = None
        self.pause = Pause()

    @property
    def is_well(self) -> bool:
        return self.state == self.well

    def set_state(self, state: str, why: str = '') -> None:
        if (state, why) != (self.state, self.why):
            self.state, self.why = state, why
            self.machine.note(f'{self.kind} {self.name}: {state}{": " + why if why else ""}')

    def tell_unusable(self, error: OSError) -> None:
        self.set_state('pausing', f'{self.place.path}: {error}: make room, or mend its mode')

    async def live(self) -> None:
        """One life, and the pause behind it."""
        raise NotImplementedError

    async def keep(self) -> None:
        """One life after the other; at a fault of this program's own its process is ended."""
        while self.is_wanted:
            try:
                await self.live()
            except Exception as error:  # noqa: BLE001
                self.machine.note(f'fault in {self.kind} {self.name}: {error!r}')
                self.kill()
                await asyncio.sleep(0.5)
        self.set_state('off')

    def start(self, words: Sequence[object], folder: Path) -> Child:
        """Begins a life."""
        with self.machine.open_log(self.log) as log:
            self.child = Child(list(map(str, words)), folder, log)
        self.starts += 1
        return self.child

    async def rest(self, child: Child, said: str, refused: Sequence[int] = ()) -> None:
        """Tells how a life ended, and waits for the next; where it was refused, until woken."""
        self.machine.note_death()
        why, is_refused = self.reasons.get(child.status, ''), child.status in refused
        self.set_state('refused' if is_refused else 'pausing',
                       f'it ended with status {child.status} {said}: {why}'.rstrip(': '))
        if is_refused:
            await self.pause.sleep(None)
        else:
            await self.pause.after(now() - child.began)

    def wake(self) -> None:
        """Starts now what pauses, and tries again what was refused."""
        if self.state in ('pausing', 'refused', 'lost'):
            self.set_state('pausing', self.why)
            self.pause.wake()

    def kill(self) -> bool:
        """Ends the process at once; whether there was one."""
        if self.child:
            self.child.kill()
        return self.child is not None

    async def end_child(self) -> None:
        """Ends the process by the end of its input."""
        if self.child:
            await self.child.end(self.settings.stop_limit)

    async def stop(self) -> None:
        """Ends the process for good."""
        self.is_wanted = False
        self.pause.wake()
        await self.end_child()

    def told(self) -> dict[str, Any]:
        """What is known of it."""
        return {'folder': self.place.folder, 'state': self.state, 'why': self.why,
                'starts': self.starts, 'pid': self.child.pid if self.child else None}


def age_of(time: float) -> Optional[float]:
    """How many seconds ago that was; nothing where it never was."""
    return round(now() - time, 2) if time else None
