"""Asks the script of a page what it shows, by a node that goes on from page to page."""
import json
import os
import shutil
import subprocess
from typing import IO, Any, Dict, Optional, Sequence, Tuple, cast

NODE = shutil.which("node")
SCRIPT = os.path.join(os.path.dirname(os.path.abspath(__file__)), "read_page.js")
_running: Dict[int, "subprocess.Popen[str]"] = {}  # of each process; it ends with that


def shown_by(path: str, width: int, times: Sequence[int],
             view: Optional[Tuple[float, float]] = None) -> Any:
    """Returns what the page of a file shows in so many pixels: of each signal its values at some
    times, and the shapes of its row."""
    if os.getpid() not in _running:
        _running[os.getpid()] = subprocess.Popen(
            [str(NODE), SCRIPT], stdin=subprocess.PIPE, stdout=subprocess.PIPE,
            universal_newlines=True)
    process = _running[os.getpid()]
    asked, answers = cast(IO[str], process.stdin), cast(IO[str], process.stdout)
    asked.write(json.dumps([path, width, list(times), view]) + "\n")
    asked.flush()
    found = json.loads(answers.readline())
    if isinstance(found, dict):
        raise AssertionError(found["error"])
    return found
