"""The keeper as a process, and the front: with the fake program, and with the real one where the environment's QJM names it."""
import json
import os
import signal
import socket
import subprocess
import sys
import tempfile
import threading
import time
import unittest
from pathlib import Path

HERE = Path(__file__).resolve().parent
REAL = Path(os.environ.get('QJM', '/nowhere'))
FRONT = [sys.executable, '-I', str(HERE.parent / '__main__.py')]


def children_in(top: Path) -> list:
    """The processes whose folder is below this one."""
    found = []
    for pid in filter(str.isdigit, os.listdir('/proc')):
        try:
            if os.readlink(f'/proc/{pid}/cwd').startswith(str(top)) and Path(f'/proc/{pid}/cmdline').read_bytes():
                found.append(int(pid))
        except OSError:
            pass
    return found


class Whole(unittest.TestCase):
    program = HERE / 'fake_qjm.py'

    def setUp(self) -> None:
        self.folder = tempfile.TemporaryDirectory()
        self.top = Path(self.folder.name)
        (self.top / 'cluster.conf').write_text('node 1 n1\nnode 2 n2\nnode 3 n3\nlead a a\nlead b b\n')
        self.env = {**os.environ, 'QJM_PROGRAM': str(self.program), 'QJM_LAUNCHER': '', 'QJM_WATCH_LIMIT': '1.5', 'QJM_LINE_LIMIT': '3'}

    def tearDown(self) -> None:
        self.run_front('down')
        for pid in children_in(self.top):
            os.kill(pid, signal.SIGKILL)
        self.folder.cleanup()

    def start_front(self, *words: str) -> subprocess.Popen:
        return subprocess.Popen([*FRONT, '-C', str(self.top), *words], text=True, stdout=subprocess.PIPE, stderr=subprocess.PIPE,
                                env=self.env)

    def run_front(self, *words: str) -> tuple:
        process = self.start_front(*words)
        out, err = process.communicate(timeout=60)
        return process.returncode, out, err

    def keeper(self) -> int:
        return next(pid for pid in children_in(self.top) if b'keep\0' in Path(f'/proc/{pid}/cmdline').read_bytes())

    def await_none(self, seconds: float) -> list:
        end = time.monotonic() + seconds
        while children_in(self.top) and time.monotonic() < end:
            time.sleep(0.02)
        return children_in(self.top)


class FakeTest(Whole):
    def test_words_leave_what_they_found(self) -> None:
        before = sorted(path.name for path in self.top.iterdir())
        for words in (['nothing'], [], ['down', '--hep'], ['log'], ['kill', 'keeper', '1'], ['--timeout', 'x', 'up'], ['trim', 'x'],
                      ['--timeout', '0', 'status']):
            self.assertEqual(self.run_front(*words)[0], 1, words)
        for words in (['status'], ['log', 'x'], ['failover', 'a'], ['metrics'], ['restart'], ['hold', '1']):
            status, out, err = self.run_front(*words)
            self.assertEqual((status, out), (12, ''), words)
            self.assertIn('`up` starts one', err)
        self.assertEqual(self.run_front('check')[0], 0)
        self.assertEqual(self.run_front('up', '--again')[0], 0)
        self.assertEqual(self.run_front('down')[0], 0)
        self.assertEqual(sorted(path.name for path in self.top.iterdir()), before)

    def test_help_of_each_command_runs_nothing(self) -> None:
        self.assertEqual(self.run_front('up')[0], 0)
        for command in ('up', 'down', 'status', 'check', 'failover', 'log', 'tell', 'checkpoint', 'trim', 'restart', 'hold', 'release',
                        'adopt', 'kill', 'auto', 'metrics', 'keep', 'attach'):
            status, out, _ = self.run_front(command, '--help')
            self.assertEqual(status, 0)
            self.assertIn('time limit', out)
            self.assertIn('exit statuses', out)
        self.assertEqual(self.run_front('status')[0], 0)

    def test_a_broken_file_is_told_before_anything_starts(self) -> None:
        with open(self.top / 'cluster.conf', 'a') as file:
            file.write('lead a c\n')
        for command in ('check', 'up', 'keep'):
            status, _, err = self.run_front(command)
            self.assertEqual(status, 1)
            self.assertIn('cluster.conf, line 6: `a`', err)
        self.assertFalse((self.top / 'n1').exists())

    def test_a_missing_program_and_a_folder_that_can_t_be_made(self) -> None:
        self.env['QJM_PROGRAM'] = '/nowhere/qjm'
        self.assertIn('./qjm --build', self.run_front('up')[2])
        self.env['QJM_PROGRAM'] = str(self.program)
        (self.top / 'cluster.run').write_text('')
        status, _, err = self.run_front('up')
        self.assertEqual(status, 1)
        self.assertIn('make room, or mend', err)
        (self.top / 'cluster.run').unlink()

    def test_two_at_once_and_a_killed_keeper(self) -> None:
        for _ in range(3):
            ups = [self.start_front('up') for _ in range(4)]
            ends = [(up.communicate(timeout=60), up.returncode) for up in ups]
            self.assertEqual([status for _, status in ends], [0] * 4, ends)
            end = time.monotonic() + 10
            while len(children_in(self.top)) > 6 and time.monotonic() < end:
                time.sleep(0.05)
            self.assertEqual(len(children_in(self.top)), 6)
            self.assertEqual(oct((self.top / 'cluster.run/keeper.sock').stat().st_mode & 0o777), '0o600')
            for folder in ('n1', 'n2', 'n3', 'a', 'b'):
                self.assertEqual((self.top / folder).stat().st_mode & 0o700, 0o700, folder)
            self.assertEqual(self.run_front('failover', 'a')[0], 0)
            os.kill(self.keeper(), signal.SIGKILL)
            self.assertEqual(self.await_none(10), [])
            self.assertEqual(self.run_front('log', 'mkdir', '/u', '10', '755', 'h', 'h')[0], 12)

    def test_a_reboot_leaves_files_that_nobody_believes(self) -> None:
        self.assertEqual(self.run_front('up')[0], 0)
        stranger = subprocess.Popen(['sleep', '1000'], cwd='/')
        for pid in children_in(self.top):
            os.kill(pid, signal.SIGKILL)
        self.assertEqual(self.await_none(10), [])
        for name in ('n1/keeper.pid', 'cluster.run/watch1.pid', 'a/lead.pid', 'a/keeper.pid'):
            (self.top / name).write_text(str(stranger.pid))
        self.assertEqual(self.run_front('status')[0], 12)
        self.assertEqual(self.run_front('down')[0], 0)
        self.assertEqual(self.run_front('up', '--again')[0], 0)
        self.assertEqual(self.run_front('status')[0], 0)
        self.assertEqual(self.run_front('down')[0], 0)
        self.assertEqual(self.run_front('up', '--again')[0], 0)
        self.assertEqual(self.run_front('status')[0], 12)
        self.assertIsNone(stranger.poll())
        stranger.kill()
        stranger.wait()

    def test_a_keeper_that_hangs(self) -> None:
        self.assertEqual(self.run_front('up')[0], 0)
        os.kill(self.keeper(), signal.SIGSTOP)
        status, _, err = self.run_front('--timeout', '1', 'up')
        self.assertEqual(status, 13)
        self.assertIn('down --force', err)
        self.assertEqual(self.run_front('down', '--force')[0], 0)
        self.assertEqual(self.await_none(10), [])
        self.assertEqual(self.run_front('up')[0], 0)

    def test_down_leaves_nothing(self) -> None:
        self.assertEqual(self.run_front('up')[0], 0)
        began = time.monotonic()
        self.assertEqual(self.run_front('down')[0], 0)
        self.assertLess(time.monotonic() - began, 5)
        self.assertEqual(self.await_none(10), [])
        self.assertIn('down already', self.run_front('down')[2])

    def test_statuses_say_what_is_so(self) -> None:
        self.assertEqual(self.run_front('up')[0], 0)
        self.assertEqual(self.run_front('auto', 'off')[0], 0)
        self.assertEqual(self.run_front('hold', '1')[0], 0)
        self.assertEqual(self.run_front('status')[0], 10)
        self.assertEqual(self.run_front('hold', '2')[0], 0)
        status, out, _ = self.run_front('status')
        self.assertEqual(status, 11)
        self.assertIn('node 1 n1: held', out)
        told = json.loads(self.run_front('status', '--json')[1])
        self.assertEqual((told['health'], told['answering'], told['nodes'][0]['state']), ('down', 1, 'held'))
        self.assertIn('qjm_cluster_health 0', self.run_front('metrics')[1])
        self.assertEqual(self.run_front('failover', 'nobody')[0], 1)
        self.assertEqual(self.run_front('tell', 'a', 'fly')[0], 4)

    def test_metrics_to_a_file(self) -> None:
        with open(self.top / 'cluster.conf', 'a') as file:
            file.write('metrics qjm.prom\n')
        self.assertEqual(self.run_front('up')[0], 0)
        self.assertIn('qjm_node_up{node="3"}', (self.top / 'qjm.prom').read_text())

    def test_a_socket_takes_what_is_no_command(self) -> None:
        self.assertEqual(self.run_front('up')[0], 0)
        with socket.socket(socket.AF_UNIX) as door:
            door.connect(str(self.top / 'cluster.run/keeper.sock'))
            door.sendall(b'{\n[]\n{"command": "fly"}\n{"to": "1 a", "data": "x"}\n{"command": "tie", "node": 1, "lead": "a"}\n')
            with door.makefile() as lines:
                self.assertEqual([json.loads(lines.readline())['status'] for _ in range(4)], [1] * 4)
        self.assertEqual(self.run_front('status')[0], 0)

    def test_an_old_python_is_told(self) -> None:
        found = subprocess.run(['python3.8', '-I', FRONT[2], 'status'], capture_output=True, text=True)
        if found.returncode == 127 or 'command not found' in found.stderr:
            self.skipTest('no old Python here')
        self.assertEqual(found.returncode, 14)
        self.assertIn('3.9 or later', found.stderr)


@unittest.skipUnless(REAL.exists(), 'QJM names no program')
class RealTest(Whole):
    program = REAL

    def pid_of(self, kind: str, place: int) -> int:
        return json.loads(self.run_front('status', '--json')[1])[kind][place]['pid']

    def log(self, name: str) -> tuple:
        return self.run_front('log', 'mkdir', name, '10', '755', 'h', 'h')[:2]

    def begin(self) -> None:
        self.assertEqual(self.run_front('up')[0], 0)
        self.assertEqual(self.run_front('auto', 'off')[0], 0)

    def test_nobody_waits_for_the_dead_or_the_hung(self) -> None:
        self.begin()
        self.assertEqual(self.log('/u'), (0, '= acked 2\n'))
        os.kill(self.pid_of('nodes', 0), signal.SIGSTOP)
        began = time.monotonic()
        self.assertEqual(self.log('/v'), (0, '= acked 3\n'))
        self.assertLess(time.monotonic() - began, 5)
        time.sleep(2.5)
        os.kill(self.pid_of('leads', 0), signal.SIGKILL)
        self.assertEqual(self.run_front('failover', 'b')[0], 0)
        self.assertEqual(self.log('/w')[0], 0)
        os.kill(self.pid_of('leads', 1), signal.SIGSTOP)
        self.assertEqual(self.run_front('--timeout', '2', 'log', 'mkdir', '/x', '10', '755', 'h', 'h')[0], 3)
        self.assertEqual(self.run_front('failover', 'b')[0], 0)
        self.assertEqual(self.run_front('status')[0], 0)

    def test_no_orphan_holds_a_folder(self) -> None:
        self.begin()
        for _ in range(3):
            os.kill(self.keeper(), signal.SIGKILL)
            self.assertEqual(self.run_front('up')[0], 0)
            self.assertEqual(self.run_front('failover', 'a')[0], 0)

    def test_a_node_s_input_ends(self) -> None:
        self.begin()
        began = time.monotonic()
        self.assertEqual(self.run_front('hold', '1')[0], 0)
        self.assertLess(time.monotonic() - began, 2)
        self.assertNotIn('137', (self.top / 'cluster.run/keeper.log').read_text())
        self.assertEqual(self.log('/u')[0], 0)
        self.assertEqual(self.run_front('release', '1')[0], 0)

    def test_lines_of_several_shells(self) -> None:
        self.begin()
        told = {}

        def go(asker: int) -> None:
            for i in range(10):
                told[f'/s{asker}x{i}'] = self.log(f'/s{asker}x{i}')
        askers = [threading.Thread(target=go, args=(asker,)) for asker in range(9)]
        [asker.start() for asker in askers]
        [asker.join() for asker in askers]
        self.assertEqual({status for status, _ in told.values()}, {0})
        self.assertEqual(self.run_front('tell', 'a', 'close')[0], 0)
        places = {}
        for file in (self.top / 'n1').glob('edits_0*-*'):
            listed = subprocess.run([self.program, 'oev', 'list', file.name], cwd=file.parent, capture_output=True, text=True).stdout
            places.update({words[2]: f'= acked {words[0]}\n' for words in map(str.split, listed.splitlines()) if words[1] == 'MKDIR'})
        self.assertEqual({name: out for name, (_, out) in told.items()}, places)

    def test_a_lost_folder(self) -> None:
        self.begin()
        self.assertEqual(self.log('/u')[0], 0)
        time.sleep(1.5)
        self.assertEqual(self.run_front('down')[0], 0)
        subprocess.run(['rm', '-r', self.top / 'n1'], check=True)
        status, _, err = self.run_front('up')
        self.assertEqual(status, 2)
        self.assertIn('node 1 is lost', err)
        self.assertEqual(self.run_front('failover', 'b')[0], 0)
        self.assertEqual(self.run_front('status')[0], 10)

    def test_nodes_restart_one_by_one(self) -> None:
        self.begin()
        self.assertEqual(self.run_front('restart')[0], 0)
        told = json.loads(self.run_front('status', '--json')[1])
        self.assertEqual([node['starts'] for node in told['nodes']], [2, 2, 2])
        self.assertEqual((told['health'], self.log('/u')[0]), ('well', 0))


if __name__ == '__main__':
    unittest.main()
