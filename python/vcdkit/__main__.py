"""python -m vcdkit COMMAND ..: runs a command of the package; without one it lists them."""
import importlib
import pkgutil
import sys
from typing import List

from . import commands

NAMES = [module.name for module in pkgutil.iter_modules(commands.__path__)]


@commands.command
def list_commands(words: List[str]) -> int:
    """Writes a line for each command, to standard error if help was not asked for."""
    is_help = words in ([], ["-h"], ["--help"])
    out = sys.stdout if is_help else sys.stderr
    print("usage: python -m vcdkit COMMAND ..\n", file=out)
    for name in NAMES:
        about = importlib.import_module("vcdkit.commands." + name).__doc__ or ""
        print("  %-14s %s" % (name.replace("_", "-"), about.partition("\n")[0]), file=out)
    return 0 if is_help else 2


def main() -> int:
    """Runs the command of the first word, and returns its status."""
    name = "".join(sys.argv[1:2]).replace("-", "_")
    if name not in NAMES:
        return list_commands(None)
    del sys.argv[1]
    status: int = importlib.import_module("vcdkit.commands." + name).main()
    return status


if __name__ == "__main__":
    sys.exit(main())
