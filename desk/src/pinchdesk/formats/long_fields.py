"""Room for long fields in Python's `csv`, whose limit is one of the whole process."""
from __future__ import annotations

import csv
import threading
from collections.abc import Iterator
from contextlib import contextmanager

# No file that is read is longer.
MOST = 2 ** 24
ALONE = threading.Lock()


@contextmanager
def long_fields() -> Iterator[None]:
    """Fields of at most `MOST` signs are read inside, by one thread at a time; afterwards the limit is as it was."""
    with ALONE:
        before = csv.field_size_limit(MOST)
        try:
            yield
        finally:
            csv.field_size_limit(before)
