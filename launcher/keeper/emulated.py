"""Bounded waits, which a lead doesn't have yet, given to it from outside: all of that stands here.

The keeper holds both ends of each pipe, so that no opening waits and no end ever comes. Two lines
stand for the ends: an empty one ends a session at a node, which answers it `bad`; and `bad` ends a
lead's wait for a reply, which it tells as silence. Where no lead waits it does no harm: before each
line of a lead what lies in its replies is taken away.
"""
import asyncio
import os
from pathlib import Path

from .pipes import now, read_some, until_readable, write_some

BAD = b'bad\n'


class Link:
    """The two pipes of a client of a node. While no node reads them (`stands_in`) each line is
    answered `bad`; `joined_at` is since when one does."""

    def __init__(self, folder: Path, client: int) -> None:
        self.paths = folder / f'{client}.requests', folder / f'{client}.replies'
        for path in self.paths:
            os.mkfifo(path, 0o600)
        flags = os.O_RDWR | os.O_NONBLOCK | os.O_CLOEXEC
        self.requests, self.replies = (os.open(path, flags) for path in self.paths)
        self.stands_in, self.joined_at = False, 0.0

    def show(self, folder: Path, number: int) -> None:
        """Lets who looks into a folder have these pipes, under a number."""
        for path in self.paths:
            (folder / f'{number}{path.suffix}').symlink_to(path)

    def stand_in(self) -> None:
        """From now on no node reads; who waits already is let go."""
        if not self.stands_in:
            self.stands_in = True
            asyncio.get_running_loop().add_reader(self.requests, self._answer)
            if not self._answer():
                self.let_go()

    def stand_aside(self) -> None:
        """A node is to read now."""
        self.stands_in, self.joined_at = False, now()
        asyncio.get_running_loop().remove_reader(self.requests)

    def _answer(self) -> int:
        lines = read_some(self.requests).count(b'\n')
        write_some(self.replies, BAD * lines)
        return lines

    def let_go(self) -> None:
        """Ends a lead's wait for a reply."""
        write_some(self.replies, BAD)

    def clear_replies(self) -> None:
        """Takes away what no lead waits for, as between two lines of it."""
        while read_some(self.replies):
            pass

    async def flush(self, seconds: float) -> bool:
        """Behind a dead lead: ends its session at the node, and takes all replies away."""
        end, asked, last = now() + seconds, False, b''
        self.clear_replies()
        while (left := end - now()) > 0:
            asked = asked or write_some(self.requests, b'\n')
            if await until_readable(self.replies, left if asked else min(left, 0.05)):
                last = (last + read_some(self.replies))[-64:]
                # (a front of a dead node's reply may stand before it)
                if asked and last.endswith(BAD):
                    self.clear_replies()
                    return True
        return False
