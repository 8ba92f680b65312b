"""How a script starts: it answers `--help`, and where a file or a command fails it ends with one line."""

import os
import subprocess
import sys

NAME = os.path.basename(sys.argv[0])


def start(main, text):
    """Runs `main` on the words of the command line, and ends with its status. `--help` prints the text, and nothing is done."""
    words = sys.argv[1:]
    if {"-h", "--help"} & {*words}:
        print(text.strip(), flush=True)
        sys.exit(0)
    try:
        sys.exit(main(words))
    except subprocess.CalledProcessError as error:
        asked = error.cmd if isinstance(error.cmd, str) else " ".join(map(str, error.cmd))
        sys.exit(f"{NAME}: `{asked}` ended with status {error.returncode}")
    except OSError as error:
        sys.exit(f"{NAME}: {error.filename or error}{f': {error.strerror}' if error.filename else ''}")
    except KeyboardInterrupt:
        sys.exit(130)
