"""Nodes and leads are kept, with a fake program."""
import asyncio
import os
import shutil
import tempfile
import unittest
from pathlib import Path

from keeper.automatic import Automatic
from keeper.kept import Pause
from keeper.commands import Commands
from keeper.config import load_config
from keeper.machine import Machine
from keeper.settings import Settings
from keeper.shown import metrics_of, text_of

FAKE = Path(__file__).with_name('fake_qjm.py')
Machine.note = lambda machine, text: None
CONF = 'node 1 n1\nnode 2 n2\nnode 3 n3\nlead a a\nlead b b\n'


class KeepingTest(unittest.IsolatedAsyncioTestCase):
    async def asyncSetUp(self) -> None:
        asyncio.get_running_loop().slow_callback_duration = 10.0
        self.folder = tempfile.TemporaryDirectory()
        self.top = Path(self.folder.name)
        (self.top / 'cluster.conf').write_text(CONF)
        (self.top / 'cluster.run').mkdir()
        self.checker = self.top / 'checker'
        self.checker.write_text('#!/bin/sh\n[ ! -e bad ] || exit 5\n')
        self.checker.chmod(0o755)
        self.machine = None

    async def asyncTearDown(self) -> None:
        if self.machine:
            self.assertEqual(await self.machine.end(), [])
        self.folder.cleanup()

    async def begin(self, **bounds: float) -> None:
        settings = Settings(FAKE, self.checker, **{'watch_each': 0.1, 'watch_limit': 1.0, 'manifest_each': 0.3, 'let_go_limit': 0.3,
                                                   'stop_limit': 2.0, 'line_limit': 2.0, **bounds})
        self.machine = Machine(self.top, load_config(self.top), settings)
        self.commands = Commands(self.machine)
        self.machine.memory.put('auto', [False, 0])
        self.machine.start()
        self.up = await self.do('up', timeout=15)

    async def do(self, command: str, **words: object) -> dict:
        return await self.commands.do({'command': command, 'timeout': 10, **words})

    async def test_a_day(self) -> None:
        await self.begin()
        self.assertEqual(self.up['status'], 0, self.up)
        self.assertEqual((await self.do('status'))['status'], 11)
        self.assertEqual((await self.do('log', line='x'))['status'], 4)
        self.assertEqual((await self.do('failover', name='c'))['status'], 1)
        self.assertEqual((await self.do('failover', name='a'))['results'], ['= takeover 1 1'])
        self.assertEqual((await self.do('status'))['health'], 'well', await self.do('status'))
        self.assertEqual((await self.do('tell', name='a', line='end'))['status'], 4)
        self.assertEqual((await self.do('tell', name='b', line='log x'))['status'], 2)
        self.assertEqual((await self.do('nothing'))['status'], 1)
        self.assertEqual((await self.do('hold', name='1'))['status'], 0)
        self.assertEqual((await self.do('hold', name='2'))['status'], 0)
        self.assertEqual((await self.do('status'))['status'], 11)
        self.assertEqual((await self.do('release', name='2'))['status'], 0)
        self.assertEqual((await self.do('release', name='1'))['status'], 0)
        self.assertEqual((await self.do('restart'))['status'], 0)
        self.assertEqual([node.starts for node in self.machine.nodes], [3, 3, 2])
        self.assertEqual((await self.do('status'))['status'], 0)

    async def test_results_of_three_askers(self) -> None:
        await self.begin()
        await self.do('failover', name='a')
        replies = await asyncio.gather(*(self.do('log', line=' ; '.join(['x'] * (i % 5 + 1))) for i in range(60)))
        self.assertEqual([len(reply['results']) for reply in replies], [i % 5 + 1 for i in range(60)])
        told = [result for reply in replies for result in reply['results']]
        self.assertEqual(told, [f'= acked {i + 2}' for i in range(len(told))])

    async def test_what_dies_comes_again(self) -> None:
        await self.begin()
        for name in ('1', '3'):
            self.assertEqual((await self.do('kill', kind='node', name=name))['status'], 0)
        self.assertEqual((await self.do('kill', kind='lead', name='b'))['status'], 0)
        node = self.machine.nodes[0]
        self.assertTrue(await self.machine.until(lambda: node.starts == 2 and node.is_well, 40))
        self.assertTrue(await self.machine.until(lambda: self.machine.leads['b'].starts == 2, 40))
        self.assertEqual((await self.do('up'))['status'], 0)

    async def test_a_lead_that_dies_tells_what_it_told(self) -> None:
        (self.top / 'a').mkdir()
        (self.top / 'a/fault').write_text('die')
        await self.begin()
        await self.do('failover', name='a')
        dying, behind = await asyncio.gather(self.do('log', line='die ; x'), self.do('log', line='y'))
        self.assertEqual((dying['status'], dying['results']), (3, ['= acked 99']))
        self.assertEqual((behind['status'], behind['results']), (2, ['= inactive']))
        self.assertIsNone((await self.do('status'))['active'])

    async def test_a_line_that_hangs(self) -> None:
        await self.begin()
        await self.do('failover', name='a')
        hanging = asyncio.create_task(self.do('log', line='hang', timeout=1.5))
        await asyncio.sleep(0.1)
        waiting = await self.do('log', line='x', timeout=0.5)
        self.assertEqual((waiting['status'], waiting['outcome']), (4, 'not given'))
        self.assertEqual((await hanging)['status'], 3)
        self.assertEqual((await self.do('failover', name='a'))['status'], 0)

    async def test_a_node_that_hangs_is_killed(self) -> None:
        (self.top / 'n2').mkdir()
        (self.top / 'n2/fault').write_text('hang')
        await self.begin(start_limit=1.0)
        self.assertEqual(self.up['status'], 2)
        (self.top / 'n2/fault').unlink()
        self.assertTrue(await self.machine.until(lambda: self.machine.nodes[1].is_well, 40))

    async def test_folders_that_aren_t_served(self) -> None:
        (self.top / 'n1').mkdir()
        (self.top / 'n1/bad').touch()
        (self.top / 'cluster.run/memory.json').write_text('{"began": ["2"]}')
        await self.begin()
        self.assertEqual([node.state for node in self.machine.nodes], ['refused', 'lost', 'answering'])
        self.assertEqual(self.machine.nodes[1].starts, 0)
        (self.top / 'n1/bad').unlink()
        (self.top / 'n2').mkdir(exist_ok=True)
        (self.top / 'n2/last-promised-epoch').touch()
        self.assertEqual((await self.do('up'))['status'], 0)

    async def test_an_empty_folder_isn_t_adopted(self) -> None:
        await self.begin()
        await self.do('hold', name='2')
        (self.top / 'n2/last-promised-epoch').unlink()
        self.assertEqual((await self.do('adopt', name='2'))['status'], 2)

    async def test_a_copied_folder(self) -> None:
        await self.begin()
        self.assertEqual((await self.do('hold', name='2'))['status'], 0)
        (self.top / 'n2').rename(self.top / 'n2.lost')
        shutil.copytree(self.top / 'n1', self.top / 'n2', symlinks=True)
        released = await self.do('release', name='2', timeout=1)
        self.assertEqual((released['status'], self.machine.nodes[1].state), (2, 'refused'))
        self.assertIn('a copy of the folder of node 1', released['says'][0])
        self.assertEqual((await self.do('adopt', name='1'))['status'], 1)
        self.assertEqual((await self.do('adopt', name='2'))['status'], 0)
        self.assertTrue(await self.machine.until(lambda: self.machine.nodes[1].is_well, 40))

    async def test_status_tells_what_was_observed(self) -> None:
        await self.begin()
        await self.do('failover', name='a')
        self.assertTrue(await self.machine.until(lambda: all(node.watch.listed_at for node in self.machine.nodes), 5))
        told = await self.do('status')
        node = told['nodes'][0]
        self.assertEqual((node['promise'], node['last'], node['segments'], node['lag'], node['counts']), (7, 6, 2, 0, True))
        self.assertLess(node['answered'], 1.5)
        await self.do('kill', kind='node', name='1')
        self.assertTrue(await self.machine.until(lambda: self.machine.nodes[0].starts == 2 and self.machine.nodes[0].is_well, 40))
        told = await self.do('status')
        self.assertEqual((told['status'], told['nodes'][0]['counts']), (10, False))
        self.assertIn('left it out', told['nodes'][0]['why'])
        self.assertIn('doesn\'t count', text_of(told))
        self.assertIn('qjm_node_counts{node="1"} 0', metrics_of(told))
        await self.do('tell', name='a', line='roll')
        self.assertEqual((await self.do('status'))['status'], 0)

    async def test_a_full_disk_and_a_folder_that_can_t_be_written(self) -> None:
        (self.top / 'n1').mkdir()
        (self.top / 'n1/fault').write_text('exit 8')
        (self.top / 'n3').write_text('')
        await self.begin()
        self.assertEqual(self.up['status'], 2)
        self.assertIn('make room', ' '.join(self.up['says']))
        self.assertEqual(self.machine.nodes[2].state, 'pausing')
        (self.top / 'n1/fault').unlink()
        (self.top / 'n3').unlink()
        self.assertTrue(await self.machine.until(lambda: self.machine.answering == 3, 40))

    async def test_a_lead_that_doesn_t_start(self) -> None:
        (self.top / 'a').mkdir()
        (self.top / 'a/fault').write_text('exit 3')
        await self.begin()
        self.assertEqual((self.up['status'], self.machine.leads['a'].state), (2, 'refused'))
        self.assertEqual((await self.do('tell', name='a', line='tail'))['status'], 4)
        self.assertEqual((await self.do('failover', name='b'))['status'], 0)
        self.assertEqual((await self.do('status'))['health'], 'degraded')

    async def test_automatic_failover(self) -> None:
        await self.begin(lead_limit=1.0)
        automatic = asyncio.create_task(Automatic(self.machine).run())
        await self.do('failover', name='a')
        await self.do('auto', on=True)
        for old, new in ('ab', 'ba'):
            await self.do('kill', kind='lead', name=old)
            self.assertTrue(await self.machine.until(lambda: self.machine.active is self.machine.leads[new], 40))
        automatic.cancel()

    async def test_one_takeover_in_a_while_but_at_death(self) -> None:
        await self.begin(failover_each=3.0)
        automatic = asyncio.create_task(Automatic(self.machine).run())
        await self.do('auto', on=True)
        self.assertTrue(await self.machine.until(lambda: self.machine.active is self.machine.leads['a'], 5))
        await asyncio.sleep(0.5)
        await self.do('tell', name='a', line='close')
        self.assertFalse(await self.machine.until(lambda: self.machine.active is not None, 1.5))
        self.assertTrue(await self.machine.until(lambda: self.machine.active is self.machine.leads['b'], 5))
        automatic.cancel()

    async def test_automatic_failover_of_a_lead_that_hangs(self) -> None:
        await self.begin(lead_limit=1.0, line_limit=30.0)
        automatic = asyncio.create_task(Automatic(self.machine).run())
        await self.do('failover', name='a')
        await self.do('auto', on=True)
        self.assertEqual((await self.do('log', line='hang', timeout=20))['status'], 3)
        self.assertTrue(await self.machine.until(lambda: self.machine.active is self.machine.leads['b'], 40))
        automatic.cancel()

    async def test_pipes_that_are_left_aren_t_believed(self) -> None:
        (self.top / 'n1/clients').mkdir(parents=True)
        (self.top / 'n1/clients/node.pid').write_text(str(os.getpid()))
        os.mkfifo(self.top / 'n1/clients/1.requests')
        (self.top / 'n2').mkdir()
        (self.top / 'n2/clients').symlink_to(self.top / 'n1/clients')
        await self.begin()
        self.assertEqual(self.up['status'], 0)
        self.assertEqual(sorted(path.name for path in (self.top / 'n1/clients').iterdir()), ['1.requests', 'node.pid'])
        self.assertEqual(sorted(path.name for path in (self.top / 'n3').iterdir()), ['keeper', 'last-promised-epoch'])

    async def test_pause_grows(self) -> None:
        pause = Pause(least=0.001, most=0.004)
        for _ in range(5):
            await pause.after(0)
        self.assertEqual(pause.next, 0.004)
        await pause.after(60)
        self.assertEqual(pause.next, 0.002)


if __name__ == '__main__':
    unittest.main()
