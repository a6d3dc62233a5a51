"""When the command was started."""
from __future__ import annotations

import os
import time

# No command loads for so many seconds: then the clocks say nothing.
LONGEST = 60.0


def started() -> float:
    """When this process was started, by `time.monotonic`; now, where the system does not say."""
    try:
        with open('/proc/self/stat', 'rb') as file:
            ticks = int(file.read().rpartition(b')')[2].split()[19])
        age = time.clock_gettime(time.CLOCK_BOOTTIME) - ticks / os.sysconf('SC_CLK_TCK')
    except (OSError, ValueError, IndexError):
        age = 0.0
    return time.monotonic() - (age if 0 < age < LONGEST else 0.0)
