#!/usr/bin/env python3
"""A fake program: `serve` answers `state` at each client's pipes, `lead` answers lines. What it is to do wrong stands in the file
`fault` of its folder: `exit N` ends it at its start with that status, `hang` answers nothing, `die` ends a lead at a line `log die`."""
import fcntl
import os
import sys
import threading
import time
from pathlib import Path

fault = Path('fault').read_text().strip() if Path('fault').exists() else ''
lock = os.open('.', os.O_RDONLY)
try:
    fcntl.flock(lock, fcntl.LOCK_EX | fcntl.LOCK_NB)
except BlockingIOError:
    print('error Locked', flush=True)
    sys.exit(75)
if fault.startswith('exit '):
    sys.exit(int(fault[5:]))


def serve(client: int) -> None:
    while True:
        if not os.path.exists(f'{sys.argv[3]}/{client}.replies'):
            time.sleep(0.1)
            continue
        pipes = f'{sys.argv[3]}/{client}'
        with open(f'{pipes}.requests') as requests, open(f'{pipes}.replies', 'w') as replies:
            for line in requests:
                while fault == 'hang':
                    time.sleep(1)
                words = line.split()
                if len(words) < 4 or words[-1] != '.':
                    print('bad', file=replies, flush=True)
                    break
                answer = 'segments 1 4 final 1 5 6 inprogress 2' if words[2] == 'manifest' else 'state 7'
                print(words[0], words[1], answer, '.', file=replies, flush=True)


if sys.argv[1] == 'serve':
    Path('last-promised-epoch').write_text('0000000000000000007\n')
    for client in range(1, int(sys.argv[2]) + 1):
        threading.Thread(target=serve, args=(client,), daemon=True).start()
    sys.stdin.read()
    os._exit(0)
# (a lead that was overtaken learns it from a file of epochs, beside the folders)
epochs, epoch, taken, txid = Path(os.environ.get('FAKE_EPOCHS', '../epochs')), 1, False, 1
epochs.touch()
for line in sys.stdin:
    word, _, rest = line.strip().partition(' ')
    if word == 'takeover':
        taken, epoch = True, int(epochs.read_text() or 0) + 1
        epochs.write_text(str(epoch))
        print('= takeover', epoch, 1)
    elif word in ('roll', 'log') and epochs.read_text() and int(epochs.read_text()) > epoch:
        taken = False
        print('= roll inactive' if word == 'roll' else '= inactive')
    elif word == 'state':
        print('= active' if taken else '= standby', epoch)
    elif word == 'close':
        taken = False
        print('= close 9')
    elif word == 'tail':
        print('= active' if taken else '= tail 0')
    elif word == 'roll':
        print('= roll 9' if taken else '= roll inactive')
    elif word == 'log':
        if fault == 'die' and 'die' in rest:
            print('= acked 99', flush=True)
            os._exit(9)
        while 'hang' in rest:
            time.sleep(1)
        for edit in rest.split(' ; '):
            txid += 1
            print('= acked', txid if taken else 'never') if taken else print('= inactive')
    else:
        print('= bad 2')
    sys.stdout.flush()
