"""How far questions have read their dumps, for what a terminal shows."""
import os
from typing import Callable, List, Optional

Part = Callable[[], Optional[float]]  # how much is read, as a part of 1; `None` if unknown
running: List[Part] = []  # of what is read now
stage = ""  # how far a command is, if it says so itself


def part_read() -> Optional[float]:
    """Returns how much of a dump is read by what runs now; of several the smallest part."""
    parts = [part() for part in tuple(running)]
    return min((part for part in parts if part is not None), default=None)


def part_of_file(descriptor: int) -> Optional[float]:
    """Returns how much of a file of this process is read; `None` if it is no regular file."""
    try:
        size = os.fstat(descriptor).st_size
        return min(os.lseek(descriptor, 0, os.SEEK_CUR) / size, 1.0) if size else None
    except OSError:
        return None
