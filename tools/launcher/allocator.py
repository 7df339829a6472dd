"""The settings of the C library's allocator with which the program is started."""

import os
import resource

VARIABLE = "GLIBC_TUNABLES"

MEBIBYTE = 1 << 20

# A build takes much memory and soon ends. So: huge pages, memory that comes in large steps and is
# kept to the end, and more freed blocks that a thread may use again without asking the others.
SETTINGS = ":".join((
    "glibc.malloc.hugetlb=1",
    f"glibc.malloc.top_pad={16 * MEBIBYTE}",
    f"glibc.malloc.trim_threshold={64 * MEBIBYTE}",
    f"glibc.malloc.mmap_threshold={32 * MEBIBYTE}",
    "glibc.malloc.tcache_count=100",
))

# The limits of a process that large steps may pass.
LIMITS = (resource.RLIMIT_AS, resource.RLIMIT_DATA)


def added() -> dict[str, str]:
    """What the environment of the program has beside this one. A user's own settings stand, also
    empty ones. Where memory is limited there are none, since large steps would pass the limit
    earlier."""
    limited = any(resource.getrlimit(limit)[0] != resource.RLIM_INFINITY for limit in LIMITS)
    return {} if VARIABLE in os.environ or limited else {VARIABLE: SETTINGS}


def environment() -> dict[str, str]:
    """The environment for the program."""
    return {**os.environ, **added()}
