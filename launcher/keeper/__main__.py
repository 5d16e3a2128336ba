"""`python3 -I launcher/keeper/__main__.py COMMAND ..`: the commands of `./qjm cluster`."""
import sys
from pathlib import Path

if sys.version_info < (3, 9):
    print(f'qjm: python3 is {sys.version.split()[0]}, and the keeper of a cluster wants 3.9 or '
          'later: install that, or have QJM_PYTHON name one', file=sys.stderr)
    sys.exit(14)
sys.path.insert(0, str(Path(__file__).resolve().parent.parent))

from keeper.front import main  # noqa: E402

sys.exit(main())
