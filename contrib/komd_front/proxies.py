"""What a reverse proxy on the way tells of a browser: where it comes from, and whether it came over TLS."""
from .addresses import address_of


class Proxy:
    """The proxy whose requests are believed, or nobody's."""

    def __init__(self, host=None):
        self.host = str(address_of(host)) if host else None

    def has_sent(self, request):
        """Whether a request comes from the proxy."""
        return str(address_of(request.remote)) == self.host

    def address(self, request):
        """The address of the browser: the last one that the proxy added, since those before it are the browser's own words."""
        if self.has_sent(request):
            told = ",".join(request.headers.getall("X-Forwarded-For", [])).rpartition(",")[2].strip()
            try:
                return address_of(told)
            except ValueError:
                pass
        return address_of(request.remote)

    def scheme(self, request):
        """`https` or `http`, as the browser has it."""
        if self.has_sent(request) and request.headers.get("X-Forwarded-Proto") == "https":
            return "https"
        return request.scheme
