"""The folder of a `draft serve` that runs, and what is left of one that was killed."""
import fcntl
import os
import pathlib
import shutil
import tempfile

PREFIX, OWNER = "draft_serve_", "owner"


def clear_left(within: pathlib.Path) -> int:
    """Removes the folders of servers that were ended before they could, and answers how many: those whose lock nobody holds."""
    count = 0
    for folder in within.glob(f"{PREFIX}*"):
        try:
            if folder.is_symlink() or folder.stat().st_uid != os.getuid():
                continue
            with open(folder / OWNER, "rb") as owner:
                fcntl.flock(owner, fcntl.LOCK_EX | fcntl.LOCK_NB)
                shutil.rmtree(folder, ignore_errors=True)
                count += 1
        except OSError:
            continue
    return count


class Session:
    """The folder of a server that runs, with a lock by which others see that it does."""

    def __init__(self) -> None:
        self.folder = pathlib.Path(tempfile.mkdtemp(prefix=PREFIX))
        self.owner = open(self.folder / OWNER, "wb")
        fcntl.flock(self.owner, fcntl.LOCK_EX)

    def clear(self) -> None:
        shutil.rmtree(self.folder, ignore_errors=True)
        self.owner.close()
