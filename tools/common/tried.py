"""What a script looked at, and what of it was otherwise than wanted."""


class Tried:
    """Counts what was looked at, and prints a line for what was otherwise."""

    def __init__(self, program, folder):
        self.program, self.folder, self.count, self.failed = str(program), folder, 0, 0

    def same(self, what, wanted, got):
        self.count += 1
        if wanted != got:
            self.failed += 1
            print(f"{what}: {got!r:.300}, not {wanted!r:.200}")
