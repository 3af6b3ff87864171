"""Passwords that come over from an old server, each at the first login with it.

No server tells a password, so an import gives each person a random one and leaves them in a file. Where the server refuses a login of
a person that stands there, the old server is asked whether it takes the password. If it does, the person is logged in with the random
one, in a session of the door's own, and given the old one by call 8; then the line of the file goes, and the login is sent again.
"""
import asyncio
import os
import pathlib
import stat

from .addresses import Full
from .calls import LOGIN, SET_PASSWORD
from .house import HOST
from .told import tell

# An old server may look up names before it answers a first call.
SECONDS = 60
GREETING = b"A10Hkomd-front\n"


class Unfit(Exception):
    """The file is not as it is to be."""


class Refused(Exception):
    """A call was not answered well."""


def string(data):
    """A string as a client spells it."""
    return b"%dH%s" % (len(data), data)


def login(person, password):
    """The call that logs a person in, invisibly."""
    return b"%d %d %s 1" % (LOGIN, person, string(password))


async def ask(host, port, *calls):
    """Has a session at a server make calls that have no result, in order, until one is refused."""
    async with asyncio.timeout(SECONDS):
        reader, writer = await asyncio.open_connection(host, port)
        try:
            writer.write(GREETING)
            for reference, call in enumerate(calls, 1):
                writer.write(b"%d %s\n" % (reference, call))
                while (line := await reader.readline())[:1] not in (b"=", b"%", b""):
                    pass
                if line.strip() != b"=%d" % reference:
                    raise Refused
        finally:
            writer.transport.abort()


class Moving:
    """The persons whose passwords are still to come over, with the random ones that they have meanwhile."""

    def __init__(self, path, old):
        self.path, self.old = pathlib.Path(path), old
        with self.path.open("rb") as file:
            if os.fstat(file.fileno()).st_mode & (stat.S_IRWXG | stat.S_IRWXO):
                raise Unfit(f"{path} is not for its owner alone")
            lines = file.read().splitlines()
        try:
            self.passwords = {int(person): password for person, password in (line.split(b"\t") for line in lines)}
        except ValueError:
            raise Unfit(f"{path} has a line that is not a number, a tab and a password") from None

    async def moves(self, house, address, person, password):
        """Whether the server takes the password now, which it did not before."""
        if person not in self.passwords:
            return False
        random = self.passwords[person]
        try:
            await ask(*self.old, login(person, password))
        except Refused:
            return False
        except (OSError, ValueError) as fault:
            tell(address, "the old server was not asked for", person, fault)
            return False
        try:
            with house.places.one_more(""):
                await ask(HOST, house.limits.komd, login(person, random),
                          b"%d %d %s %s" % (SET_PASSWORD, person, string(random), string(password)))
        except (Full, OSError, ValueError) as fault:
            tell(address, "the password did not come over of", person, fault)
            return False
        except Refused:
            tell(address, "another password than the random one has", person)
            self.strike(person)
            return False
        self.strike(person)
        tell(address, "the password came over of", person)
        return True

    def strike(self, person):
        """Takes a person out of the file, which is whole at each moment. A line that stays does no harm: its password is wrong."""
        self.passwords.pop(person, None)
        new = self.path.with_name(self.path.name + ".new")
        try:
            with open(os.open(new, os.O_WRONLY | os.O_CREAT | os.O_TRUNC, 0o600), "wb") as file:
                file.writelines(b"%d\t%s\n" % line for line in self.passwords.items())
                file.flush()
                os.fsync(file.fileno())
            new.replace(self.path)
        except OSError as fault:
            tell("the line stays in the file of", person, fault)
