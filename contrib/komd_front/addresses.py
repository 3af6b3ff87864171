"""Where clients come from, and how many of one place there are at a time."""
import contextlib
import dataclasses
import ipaddress

# Whoever has an address of IPv6 mostly has so many bits of it for itself.
OWN_BITS = 64


@dataclasses.dataclass(frozen=True)
class Address:
    """The address of a client: as it is told, and as the limits take it."""

    host: str
    place: str

    def __str__(self):
        return self.host


def address_of(host):
    """The address that a socket, or a proxy, names so. An address of IPv4 is one of IPv4 at a socket of both families too."""
    address = ipaddress.ip_address(host.partition("%")[0])
    if address.version == 4:
        return Address(str(address), str(address))
    if address.ipv4_mapped:
        return address_of(str(address.ipv4_mapped))
    return Address(str(address), str(ipaddress.ip_network((address, OWN_BITS), strict=False)))


def is_of_this_machine(host):
    """Whether nobody else reaches an address."""
    return ipaddress.ip_address(host).is_loopback


class Full(Exception):
    """There are as many as there may be."""


class Crowd:
    """How many there are, in all and of each place."""

    def __init__(self, most, most_of_a_place):
        self.most, self.most_of_a_place = most, most_of_a_place
        self.count, self.counts = 0, {}

    def is_full(self):
        """Whether there are as many as there may be in all."""
        return self.count >= self.most

    @contextlib.contextmanager
    def one_more(self, place):
        """Counts one for as long as it is there, or refuses it."""
        if self.is_full() or self.counts.get(place, 0) >= self.most_of_a_place:
            raise Full
        self.count += 1
        self.counts[place] = self.counts.get(place, 0) + 1
        try:
            yield
        finally:
            self.count -= 1
            self.counts[place] -= 1
            if not self.counts[place]:
                del self.counts[place]
