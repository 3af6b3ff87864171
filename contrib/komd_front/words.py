"""The words of the command line."""
import argparse
import pathlib

from .addresses import is_of_this_machine
from .doors import EVERYWHERE
from .house import LEFT_FREE, Limits

THIS_MACHINE = "127.0.0.1"
PAGE = pathlib.Path(__file__).resolve().parent.parent / "web"


def parser():
    """All words, as --help tells them."""
    words = argparse.ArgumentParser(
        prog="komd-front", allow_abbrev=False,
        description="A front door for a komd of this machine: TLS, browsers, and limits for whoever comes from elsewhere.",
        epilog="At least one of --port and --web is wanted. See komd-front(8).")
    ports = words.add_argument_group("where it listens")
    ports.add_argument("--port", type=port, metavar="PORT", help="serve clients that speak Protocol A at this port")
    ports.add_argument("--web", type=port, metavar="PORT", help="serve the page, and WebSockets at /kom, at this port")
    ports.add_argument("--listen", metavar="ADDRESS", help="the one address to listen at (with a certificate all, else 127.0.0.1)")
    tls = words.add_argument_group("TLS")
    tls.add_argument("--cert", metavar="FILE", help="the certificate, and those that lead to it (PEM); read anew at signal HUP")
    tls.add_argument("--key", metavar="FILE", help="its key, if that does not stand in the same file")
    tls.add_argument("--cleartext", action="store_true", help="without a certificate, serve another address than this machine's too")
    server = words.add_argument_group("the server")
    server.add_argument("--komd", type=port, metavar="PORT", default=4894, help="its port on this machine (4894)")
    server.add_argument("--places", type=places, metavar="N", default=1_024,
                        help="how many sessions it serves at a time (1024), of which the door takes all but two")
    server.add_argument("--open", action="store_true", help="let whoever has not logged in make a person (call 89)")
    web = words.add_argument_group("browsers")
    web.add_argument("--page", metavar="FOLDER", default=PAGE, type=pathlib.Path, help="the folder of the page (web, beside this program)")
    web.add_argument("--proxy", metavar="ADDRESS", type=host,
                     help="believe X-Forwarded-For and X-Forwarded-Proto of a reverse proxy at this address")
    limits = words.add_argument_group("limits")
    limits.add_argument("--connections", type=count, metavar="N", default=8, help="sessions of an address (8)")
    limits.add_argument("--greeting", type=seconds, metavar="SECONDS", default=30, help="for a handshake and a greeting (30)")
    limits.add_argument("--silent", type=seconds, metavar="SECONDS", default=60, help="for whoever takes nothing of what is sent (60)")
    limits.add_argument("--guess", type=seconds, metavar="SECONDS", default=5,
                        help="between two passwords of an address after five wrong ones in ten minutes (5)")
    limits.add_argument("--stranger", type=seconds, metavar="SECONDS", default=10,
                        help="that a session without a login keeps its place for, where all are taken (10)")
    moving = words.add_argument_group("passwords that come over from an old server")
    moving.add_argument("--old", type=address_and_port, metavar="[ADDRESS:]PORT", help="where that serves")
    moving.add_argument("--passwords", metavar="FILE", help="the passwords that komd-import drew; lines go as passwords come over")
    return words


def given(told=None):
    """The words that are told, or else those of this run. Others end it with status 2."""
    words = parser()
    arg = words.parse_args(told)
    if not arg.port and not arg.web:
        words.error("neither --port nor --web")
    if arg.key and not arg.cert:
        words.error("a --key without its --cert")
    if bool(arg.old) != bool(arg.passwords):
        words.error("--old and --passwords come together")
    arg.listen = arg.listen or (EVERYWHERE if arg.cert or arg.cleartext else THIS_MACHINE)
    try:
        if not (arg.cert or arg.cleartext or is_of_this_machine(arg.listen)):
            words.error("without --cert others could read all that is sent: say --cleartext if that is meant")
    except ValueError:
        words.error(f"{arg.listen} is no address")
    return arg


def limits_of(arg):
    """The limits among the words."""
    return Limits(komd=arg.komd, places=arg.places, connections=arg.connections, greeting_seconds=arg.greeting,
                  silent_seconds=arg.silent, guess_seconds=arg.guess, stranger_seconds=arg.stranger, is_open=arg.open)


def number(word, least, most):
    """A number of a range."""
    if not word.isascii() or not word.isdigit() or not least <= int(word) <= most:
        raise argparse.ArgumentTypeError(f"{word} is not a number from {least} to {most}")
    return int(word)


def port(word):
    return number(word, 1, 65_535)


def places(word):
    return number(word, LEFT_FREE + 1, 65_535)


def count(word):
    return number(word, 1, 65_535)


def seconds(word):
    try:
        if 0 < float(word) <= 86_400:
            return float(word)
    except ValueError:
        pass
    raise argparse.ArgumentTypeError(f"{word} is no number of seconds up to a day")


def host(word):
    try:
        is_of_this_machine(word)
    except ValueError:
        raise argparse.ArgumentTypeError(f"{word} is no address") from None
    return word


def address_and_port(word):
    name, _, last = word.rpartition(":")
    return name.strip("[]") or THIS_MACHINE, port(last)
