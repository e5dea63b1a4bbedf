"""What a terminal shows while a command works for more than a second."""
import sys
import threading
from typing import Any, Optional

from ..reading import progress


class Progress:
    """Says on a terminal how far a command has read the dump, if it takes longer than a second. If
    its output goes to the same terminal, the line of progress makes room for each line of that."""

    def __init__(self, name: str):
        self._name = name
        self._ended, self._lock = threading.Event(), threading.Lock()
        self._thread = threading.Thread(target=self._run, daemon=True)
        self._out: Any = None  # standard output, if it is a terminal
        self._is_shown, self._is_at_begin = False, True

    def __enter__(self) -> "Progress":
        if sys.stderr.isatty():
            if sys.stdout.isatty():
                self._out, sys.stdout = sys.stdout, self  # type: ignore[assignment]
            self._thread.start()
        return self

    def __exit__(self, *_: object) -> None:
        self._ended.set()
        if self._thread.ident:
            self._thread.join()
            self._clear()
        if self._out:
            sys.stdout = self._out

    def _run(self) -> None:
        while not self._ended.wait(1):
            part = progress.part_read()
            with self._lock:
                if self._is_at_begin:
                    self._say("\r\033[K%s: %s" % (self._name, progress.stage or (
                        "reads the dump" if part is None else "%d%%" % (100 * part))))
                    self._is_shown = True

    def _clear(self) -> None:
        if self._is_shown:
            self._say("\r\033[K")
            self._is_shown = False

    @staticmethod
    def _say(text: str) -> None:
        try:
            print(text, end="", file=sys.stderr, flush=True)
        except OSError:
            pass  # the terminal has gone

    # In place of standard output.

    def write(self, text: str) -> Optional[int]:
        """Writes to standard output."""
        with self._lock:
            self._clear()
            self._is_at_begin = text.endswith("\n") if text else self._is_at_begin
            written: Optional[int] = self._out.write(text)
            return written

    def __getattr__(self, name: str) -> Any:
        return getattr(self._out, name)
