"""Two machines, which are two folders here: an `ssh` of the tests' own runs what it is given."""
import json
import os
import signal
import subprocess
import tempfile
import time
import unittest
from pathlib import Path

from keeper.tests.test_whole import FRONT, HERE, children_in

CONF = '''machine x {0}/x
machine y {0}/y other@y
node 1 x:n1
node 2 x:n2
node 3 y:n3
lead a x:a
lead b y:b
'''


class MachinesTest(unittest.TestCase):
    def setUp(self) -> None:
        self.folder = tempfile.TemporaryDirectory()
        self.top = Path(self.folder.name)
        (self.top / 'ssh').write_text('#!/bin/sh\n[ ! -e "${0%/*}/cut" ] || exit 255\nfor last; do :; done\nexec sh -c "$last"\n')
        (self.top / 'qjm').write_text(f'#!/bin/sh\nshift\nexec {" ".join(FRONT)} "$@"\n')
        for name in ('ssh', 'qjm'):
            (self.top / name).chmod(0o755)
        self.env = {**os.environ, 'QJM_PROGRAM': str(HERE / 'fake_qjm.py'), 'QJM_LAUNCHER': '', 'QJM_PEER_LIMIT': '1.5',
                    'QJM_REMOTE': str(self.top / 'qjm'), 'PATH': f'{self.top}:{os.environ["PATH"]}', 'QJM_PEER_EACH': '0.2',
                    'FAKE_EPOCHS': str(self.top / 'epochs')}
        (self.top / 'epochs').write_text('')
        for name in 'xy':
            (self.top / name).mkdir()
            (self.top / name / 'cluster.conf').write_text(CONF.format(self.top))
            (self.top / name / 'cluster.host').write_text(f'{name}\n')

    def tearDown(self) -> None:
        for name in 'xy':
            self.front(name, 'down')
        for pid in children_in(self.top):
            os.kill(pid, signal.SIGKILL)
        self.folder.cleanup()

    def front(self, name: str, *words: str) -> subprocess.CompletedProcess:
        return subprocess.run([*FRONT, '-C', str(self.top / name), *words], env=self.env, capture_output=True, text=True, timeout=60)

    def status(self, name: str) -> dict:
        return json.loads(self.front(name, 'status', '--json').stdout)

    def await_health(self, name: str, health: str, active: str = '') -> None:
        end, told = time.monotonic() + 30, {}
        while time.monotonic() < end:
            told = self.status(name)
            if told['health'] == health and (not active or told['active'] == active):
                return
            time.sleep(0.1)
        self.fail(f'{name} isn\'t {health}: {told}')

    def test_two_machines(self) -> None:
        for name in 'xy':
            self.assertEqual(self.front(name, 'up').returncode, 0)
        for name in 'xy':
            self.await_health(name, 'well')
        self.assertEqual(self.front('x', 'check').returncode, 0)
        # commands go to the machine that has the lead or the node
        self.assertEqual(self.front('x', 'failover', 'b').stdout, '= takeover 2 1\n')
        self.assertEqual(self.front('y', 'tell', 'a', 'roll').stdout, '= roll inactive\n')
        self.await_health('x', 'well', 'b')
        self.assertEqual(self.front('x', 'log', 'mkdir /u 10 755 h h').stdout, '= acked 2\n')
        self.assertEqual(self.front('x', 'hold', '3').returncode, 0)
        self.await_health('y', 'degraded')
        self.assertEqual(self.front('x', 'release', '3').returncode, 0)
        self.assertEqual(self.front('x', 'restart').returncode, 0)
        self.await_health('x', 'well')
        # a machine whose keeper is killed is let go at once, and the other's lead takes over
        for pid in children_in(self.top / 'y'):
            os.kill(pid, signal.SIGKILL)
        self.await_health('x', 'degraded', 'a')
        told = self.status('x')
        self.assertEqual((told['nodes'][2]['state'], told['leads'][1]['state']), ('unknown', 'unknown'))
        self.assertEqual(self.front('x', 'hold', '3').returncode, 4)
        self.assertEqual(self.front('y', 'up').returncode, 0)
        self.await_health('y', 'well', 'a')

    def test_a_way_that_breaks(self) -> None:
        for name in 'xy':
            self.assertEqual(self.front(name, 'up').returncode, 0)
        for name in 'xy':
            self.await_health(name, 'well', 'a')
        (self.top / 'cut').touch()
        for pid in children_in(self.top):
            if b'attach' in Path(f'/proc/{pid}/cmdline').read_bytes():
                os.kill(pid, signal.SIGKILL)
        self.await_health('x', 'degraded', 'a')
        self.await_health('y', 'down')
        self.assertEqual(self.front('y', 'log', 'mkdir /u 10 755 h h').returncode, 4)
        (self.top / 'cut').unlink()
        for name in 'xy':
            self.await_health(name, 'well', 'a')

    def test_files_that_differ(self) -> None:
        with open(self.top / 'y/cluster.conf', 'a') as file:
            file.write('lead c y:c\n')
        for name in 'xy':
            self.front(name, 'up')
        end, told = time.monotonic() + 20, ''
        while 'cluster.conf isn\'t the same on' not in told and time.monotonic() < end:
            told = self.front('x', 'check').stderr
        self.assertIn('cluster.conf isn\'t the same on', told)


if __name__ == '__main__':
    unittest.main()
