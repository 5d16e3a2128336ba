"""The file cluster.conf, the checks before anything starts, and folders."""
import os
import shutil
import tempfile
import unittest
from pathlib import Path
from unittest import mock

from keeper.config import check_folders, check_room, check_tools, load_config, read_config
from keeper.remembered import Memory, NotOwn, has_node_files, prepare, told_of, write_number
from keeper.peer import words_to, words_to_listen
from keeper.settings import Settings

GOOD = 'node 1 n1\nnode 2 n2\nnode 3 n3\nlead a a\nlead b b\n'
TWO = ('machine x /srv/day\nmachine y /srv/day root@10.0.0.2\nnode 1 x:n1\nnode 2 x:n2\nnode 3 y:n3\nlead a x:a\nlead b y:b\n'
       'relay ssh -F /etc/config\n')


class ConfigTest(unittest.TestCase):
    def problem(self, text: str, *words: str) -> None:
        problems = read_config(text, 'x').problems
        self.assertTrue(any(all(word in problem for word in words) for problem in problems), problems)

    def test_good(self) -> None:
        config = read_config('# a comment\n\n' + GOOD)
        self.assertEqual(config.problems, [])
        self.assertEqual([n.folder for n in config.nodes], ['n1', 'n2', 'n3'])
        self.assertEqual((config.majority, config.client_of('b')), (2, 2))

    def test_machines(self) -> None:
        config = read_config(TWO, 'x')
        self.assertEqual(config.problems, [])
        self.assertEqual([p.name for p in config.nodes if config.is_here(p)], ['1', '2'])
        self.assertEqual([m.name for m in config.others], ['y'])
        self.assertEqual(config.digest(), read_config(TWO + '# more\n', 'y').digest())
        self.assertNotEqual(config.digest(), read_config(TWO.replace('x:n2', 'x:n4'), 'x').digest())
        words = words_to(config, config.others[0])
        self.assertEqual((words[0], words[-4:-1]), ('ssh', ['-F', '/etc/config', 'root@10.0.0.2']))
        self.assertEqual(words_to_listen(config), [])
        socat = read_config(TWO.replace('relay ssh -F /etc/config', 'relay socat 4000 /k.pem /ca.pem'), 'x')
        self.assertEqual(words_to(socat, socat.others[0])[0], 'socat')
        self.assertIn('OPENSSL-LISTEN:4000', words_to_listen(socat)[1])

    def test_bad_is_told_by_line_and_word(self) -> None:
        self.problem(GOOD.replace('\n', '\r\n'), 'line 1', 'carriage return')
        self.problem(GOOD + 'lead c n1\n', 'line 6', '`n1`', 'a line before')
        self.problem(GOOD + 'lead c ./n1/\n', 'line 6', 'a line before')
        self.problem(GOOD + 'lead a c\n', 'line 6', '`a`')
        self.problem(GOOD + 'lead c -rf\n', '`-rf`', 'begins with -')
        self.problem(GOOD + 'node 4 host:-x\n', '`host:-x`')
        self.problem(GOOD + 'node 4 my folder\n', 'line 6', '`folder`', 'too many')
        self.problem(GOOD + 'node  4 n4\n', 'line 6', 'word 2')
        self.problem(GOOD + 'node 4\n', 'line 6', 'missing behind `4`')
        self.problem(GOOD + 'node\t4 n4\n', 'column 5')
        self.problem(GOOD + 'node 5 n5\n', '`5` isn\'t 4')
        self.problem(GOOD + 'nodes 4 n4\n', '`nodes`')
        self.problem(GOOD + 'lead c .\n', 'own folder')
        self.problem('lead a a\n', '1 to 15')
        self.problem(''.join(f'node {i} n{i}\n' for i in range(1, 17)) + 'lead a a\n', '1 to 15')

    def test_bad_machines(self) -> None:
        self.problem(TWO + 'node 4 z:n\n', 'line 9', '`z`')
        self.problem(TWO + 'node 4 n\n', 'line 9', 'HOST:PATH')
        self.problem(TWO + 'machine z day\n', '`day`')
        self.problem(TWO + 'machine x /y\n', '`x`')
        self.problem(TWO + 'relay carrier\n', '`carrier`')
        self.problem(TWO + 'relay socat x p c\n', '`x` is no port')
        self.problem(TWO.replace('machine x', 'machine w').replace('x:', 'w:'), 'cluster.host')

    def test_own_name(self) -> None:
        with tempfile.TemporaryDirectory() as name:
            Path(name, 'cluster.conf').write_text(TWO)
            Path(name, 'cluster.host').write_text('y\n')
            self.assertEqual(load_config(Path(name)).own, 'y')
            with mock.patch.dict(os.environ, QJM_HOST='x'):
                self.assertEqual(load_config(Path(name)).own, 'x')

    def test_machine(self) -> None:
        with tempfile.TemporaryDirectory() as name:
            top = Path(name)
            self.assertIn('no file', load_config(top).problems[0])
            (top / 'cluster.conf').write_bytes(b'\xff')
            self.assertIn('byte 0', load_config(top).problems[0])
            (top / 'cluster.conf').write_text(GOOD)
            (top / 'n1').mkdir()
            (top / 'n2').symlink_to('n1')
            (top / 'a').write_text('')
            config = load_config(top)
            problems = check_folders(config, top) + check_tools(config, Settings(top / 'none'))
            for words in ('node 2 has the folder of node 1', 'lead a', 'the program'):
                self.assertTrue(any(words in p for p in problems), problems)
            with mock.patch.dict(os.environ, PATH='/nowhere'):
                problems = check_tools(read_config(TWO, 'x'), Settings(top / 'none', top / 'none'))
            for tool in ('ssh', 'setpriv', 'flock'):
                self.assertTrue(any(f'`{tool}` isn\'t on the PATH: install it' in p for p in problems), problems)

    def test_room_and_clock(self) -> None:
        with tempfile.TemporaryDirectory() as name:
            top = Path(name)
            (top / 'n1').mkdir()
            (top / 'n1/x').touch()
            os.utime(top / 'n1/x', (2e10, 2e10))
            self.assertTrue(any('set the clock' in p for p in check_room(read_config(GOOD), top)))
            with mock.patch('os.statvfs', return_value=mock.Mock(f_bavail=1, f_frsize=4096, f_files=9, f_favail=1)):
                told = ' '.join(check_room(read_config(GOOD), top))
            self.assertIn('0 MiB left', told)
            self.assertIn('1 more files', told)


class FoldersTest(unittest.TestCase):
    def setUp(self) -> None:
        self.room = tempfile.TemporaryDirectory()
        self.top = Path(self.room.name)

    def tearDown(self) -> None:
        self.room.cleanup()

    def test_memory(self) -> None:
        memory = Memory(self.top / 'memory.json')
        memory.note('began', '1', True)
        memory.put('active', 'a')
        again = Memory(self.top / 'memory.json')
        self.assertEqual((again.get('began'), again.get('active'), again.get('auto')), (['1'], 'a', [True, 0]))

    def test_memory_that_can_t_be_kept(self) -> None:
        memory = Memory(self.top / 'none/memory.json')
        memory.put('active', 'a')
        self.assertEqual(memory.get('active'), 'a')
        self.assertIn('can\'t be written', memory.fault)
        (self.top / 'none').mkdir()
        memory.put('active', 'a')
        self.assertEqual((memory.fault, Memory(self.top / 'none/memory.json').get('active')), ('', 'a'))
        (self.top / 'bad.json').write_text('{')
        self.assertIn('can\'t be read', Memory(self.top / 'bad.json').fault)

    def test_files_of_a_node(self) -> None:
        self.assertFalse(has_node_files(self.top / 'none'))
        self.assertFalse(has_node_files(self.top))
        (self.top / 'edits_0000000000000000009-0000000000000000010').touch()
        self.assertTrue(has_node_files(self.top))

    def make(self, name: str, folders: dict) -> Path:
        folder = self.top / name
        folders[name] = prepare(folder, name, folders)
        (folder / 'last-promised-epoch').touch()
        return folder

    def test_a_folder_of_its_own(self) -> None:
        folders: dict = {}
        one, two = self.make('1', folders), self.make('2', folders)
        self.assertEqual(prepare(one, '1', folders), folders['1'])
        shutil.rmtree(two)
        shutil.copytree(one, two, symlinks=True)
        with self.assertRaisesRegex(NotOwn, 'a copy of the folder of node 1'):
            prepare(two, '2', folders)
        one.rename(self.top / 'old')
        shutil.copytree(self.top / 'old', one, symlinks=True)
        with self.assertRaisesRegex(NotOwn, 'an older one'):
            prepare(one, '1', folders)
        folders['1'] = write_number(one)
        self.assertEqual(prepare(one, '1', folders)['number'], folders['1']['number'])

    def test_a_device_may_get_another_number(self) -> None:
        folders: dict = {}
        one = self.make('1', folders)
        folders['1']['device'] += 1
        self.assertEqual(prepare(one, '1', folders), told_of(one, folders['1']['number']))
        folders['1'].update(device=folders['1']['device'] + 1, system=0)
        with self.assertRaises(NotOwn):
            prepare(one, '1', folders)


if __name__ == '__main__':
    unittest.main()
