"""How `draft` begins, where a part of Python isn't there too: Debian's python3-minimal has some of it alone."""
import sys


def main() -> None:
    """Runs the command that the process was begun with, and ends it with its status; a module of Python that isn't there is told in a line."""
    try:
        from .commands import main as run
        status = run()
    except ModuleNotFoundError as lack:
        if not lack.name or lack.name.partition(".")[0] not in sys.stdlib_module_names:
            raise
        sys.exit(f"draft: a part of Python isn't there, {lack.name}: apt-get install python3")
    sys.exit(status)
