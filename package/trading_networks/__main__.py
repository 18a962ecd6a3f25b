"""The program by the package: `python -m trading_networks solve < file` is `market solve < file`, with its exit status."""
import os
import subprocess
import sys

from .errors import NoProgram
from .program import find
from .served import words_for

NONE = 70


def main() -> int:
    """Becomes the program; on Windows, which has no exec that keeps the status, it waits for it."""
    try:
        words = [*words_for(find()), *sys.argv[1:]]
    except NoProgram as error:
        print(f"market: {error}", file=sys.stderr)
        return NONE
    if os.name == "nt":
        return subprocess.run(words, check=False).returncode
    os.execvp(words[0], words)


sys.exit(main())
