"""What answers stand on, by sums: where these are the same on two machines, so are the answers."""
import hashlib
import pathlib

PACKAGE = pathlib.Path(__file__).resolve().parents[1]


def of_files(files: list[pathlib.Path]) -> str:
    """A sum over the names and bytes of files."""
    found = hashlib.sha256()
    for file in files:
        found.update(f"{file.name} {file.stat().st_size}\n".encode())
        found.update(file.read_bytes())
    return found.hexdigest()


def version_of_ezdxf() -> str:
    """The version of ezdxf; nothing where it isn't there."""
    from importlib import metadata  # which takes longer to begin than all else here
    try:
        return metadata.version("ezdxf")
    except metadata.PackageNotFoundError:
        return ""


def of(program: pathlib.Path) -> dict[str, str]:
    """The sums of the program and of `draft`, and the version of ezdxf."""
    own = sorted(file for file in PACKAGE.rglob("*") if file.suffix in (".py", ".lp"))
    return {"recon": hashlib.sha256(program.read_bytes()).hexdigest(), "draft": of_files(own), "ezdxf": version_of_ezdxf() or "none"}
