"""The pipes of which both ends are held: nobody waits at them without end."""
import asyncio
import os
import tempfile
import unittest
from pathlib import Path

from keeper.emulated import BAD, Link


def ask(link: Link, line: bytes) -> bytes:
    """A lead's call, over openings of its own that block."""
    with open(link.paths[0], 'wb', buffering=0) as requests, open(link.paths[1], 'rb', buffering=0) as replies:
        requests.write(line)
        return replies.read(64)


class PipesTest(unittest.IsolatedAsyncioTestCase):
    async def asyncSetUp(self) -> None:
        self.folder = tempfile.TemporaryDirectory()
        self.link = Link(Path(self.folder.name), 1)

    async def asyncTearDown(self) -> None:
        self.link.stand_aside()
        for fd in (self.link.requests, self.link.replies):
            os.close(fd)
        self.folder.cleanup()

    async def within(self, call, seconds: float = 5):
        return await asyncio.wait_for(call, seconds)

    async def test_a_dead_node_s_caller_is_let_go(self) -> None:
        self.link.stand_in()
        for line in (b'#1 1 state .\n', b'#1 2 accept ' + b'7' * (1 << 20) + b' .\n'):
            # (as before each line of a lead)
            self.link.clear_replies()
            self.assertEqual(await self.within(asyncio.to_thread(ask, self.link, line)), BAD)

    async def test_who_waits_as_the_node_dies_is_let_go(self) -> None:
        node = os.open(self.link.paths[0], os.O_RDONLY)
        waiting = asyncio.create_task(asyncio.to_thread(ask, self.link, b'#1 1 state .\n'))
        await asyncio.to_thread(os.read, node, 64)
        os.close(node)
        self.link.stand_in()
        self.assertEqual(await self.within(waiting), BAD)

    async def test_none_is_let_go_twice(self) -> None:
        os.write(self.link.requests, b'#1 1 state .\n')
        self.link.stand_in()
        self.assertEqual(os.read(self.link.replies, 64), BAD)
        self.link.let_go()
        self.link.clear_replies()
        self.assertRaises(BlockingIOError, os.read, self.link.replies, 64)

    async def test_flush_behind_a_lead_that_died(self) -> None:
        asked = []

        def serve() -> None:
            with open(self.link.paths[0], 'rb', buffering=0) as requests, open(self.link.paths[1], 'wb', buffering=0) as replies:
                rest = b''
                while BAD not in asked:
                    *lines, rest = (rest + requests.read(1 << 16)).split(b'\n')
                    for line in lines:
                        asked.append(line if line.endswith(b' .') else BAD)
                        replies.write(b'#1 1 ok ' + b'7' * 300_000 + b' .\n' if line.endswith(b' .') else BAD)
        os.write(self.link.requests, b'#1 1 fetch 1 1 1 1 1 .\n#1 2 sta')
        node = asyncio.create_task(asyncio.to_thread(serve))
        self.assertTrue(await self.within(self.link.flush(4)))
        await self.within(node)
        self.assertEqual(asked, [b'#1 1 fetch 1 1 1 1 1 .', BAD])
        self.assertRaises(BlockingIOError, os.read, self.link.replies, 64)

    async def test_flush_is_bounded(self) -> None:
        self.assertFalse(await self.within(self.link.flush(0.2)))
        self.link.stand_in()
        self.assertTrue(await self.within(self.link.flush(2)))


if __name__ == '__main__':
    unittest.main()
