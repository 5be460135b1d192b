"""Pauses of the whole machine, in which a speaker loses its neighbours."""
import threading
import time


class Clock(threading.Thread):
    """Wakes every 20 ms, and keeps the longest time between two of its turns."""

    def __init__(self):
        super().__init__(daemon=True)
        self.longest = 0.0

    def run(self):
        last = time.monotonic()
        while True:
            time.sleep(0.02)
            now = time.monotonic()
            self.longest = max(self.longest, now - last)
            last = now


def undisturbed(name, attempt, pause, tries):
    """How much differs, which `attempt` returns. After a pause of the machine it is called
    again."""
    clock = Clock()
    clock.start()
    for turn in range(1, tries + 1):
        clock.longest = 0.0
        differ = attempt()
        if not differ or clock.longest < pause or turn == tries:
            break
        print(f"{name} again, since the machine paused for {clock.longest:.1f} s", flush=True)
    return differ
