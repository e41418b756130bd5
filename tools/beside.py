"""The check that `rt try` starts beside a try: it looks for names that a proof would refuse, and takes as long as compiling does."""
import contextlib
import glob
import os


def leave_idle_time(tried):
    """Gives the check beside that `rt try` only what time others leave, since nothing here rests on it, and answers whether it was there."""
    for path in glob.glob(f"/proc/{tried}/task/*/children"):
        with contextlib.suppress(OSError), open(path, encoding="ascii") as it:
            for child in map(int, it.read().split()):
                if is_check(child):
                    os.sched_setscheduler(child, os.SCHED_IDLE, os.sched_param(0))
                    return True
    return False


def is_check(process):
    with open(f"/proc/{process}/cmdline", "rb") as it:
        words = it.read().split(b"\0")
    return b"check" in words and b"--start" in words
