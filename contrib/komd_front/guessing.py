"""Guessing passwords is made slow, for the place that guesses and for nobody else."""
import asyncio
import time

# So many wrong passwords of a place in so many seconds are taken for slips.
SLIPS, SECONDS = 5, 600
# With so many places remembered, those whose wrong passwords are old are forgotten.
MANY = 1_000


class Guesses:
    """When each place gave wrong passwords. After five of them in ten minutes its attempts are let through one after another, some
    seconds apart. They wait before anybody knows whether they are right, so whoever breaks off has learnt nothing."""

    def __init__(self, seconds_apart):
        self.seconds_apart = seconds_apart
        self.wrong, self.turns = {}, {}

    async def turn(self, place):
        """Waits until an attempt may go on."""
        if len(self.recent(place)) < SLIPS:
            return
        async with self.turns.setdefault(place, asyncio.Lock()):
            await asyncio.sleep(self.seconds_apart)

    def was_wrong(self, place):
        """Remembers a wrong password."""
        if len(self.wrong) >= MANY:
            self.forget()
        self.wrong[place] = [*self.recent(place)[1 - SLIPS:], time.monotonic()]

    def recent(self, place):
        """When wrong passwords came lately, five at most."""
        return [moment for moment in self.wrong.get(place, ()) if moment > time.monotonic() - SECONDS]

    def forget(self):
        """Lets go of what need not be remembered."""
        for place in [place for place in self.wrong if not self.recent(place)]:
            del self.wrong[place]
        for place in [place for place, turn in self.turns.items() if place not in self.wrong and not turn.locked()]:
            del self.turns[place]
