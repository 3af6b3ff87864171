"""TLS, by Python's own module."""
import asyncio.sslproto
import contextlib
import ssl

# How much is kept for reading at each connection. asyncio has 256 KiB, which is a quarter of a GB for a thousand idle clients.
asyncio.sslproto.SSLProtocol.max_size = 16_384
# How long the last words of a connection may take.
SHUTDOWN_SECONDS = 5


class Tls:
    """The certificate of a door and its key, or neither."""

    def __init__(self, certificate, key):
        self.certificate, self.key = certificate, key
        self.context = ssl.create_default_context(ssl.Purpose.CLIENT_AUTH) if certificate else None
        self.load()

    def load(self):
        """Reads the files, for the handshakes that come. Where they are unfit those that were read before stay."""
        if not self.context:
            return
        try:
            self.context.load_cert_chain(self.certificate, self.key)
        except OSError as fault:
            raise OSError(f"{self.certificate}: {fault.strerror or fault}") from fault

    def handshake(self, seconds):
        """The words of `connect_accepted_socket` for it."""
        if not self.context:
            return {}
        return {"ssl": self.context, "ssl_handshake_timeout": seconds, "ssl_shutdown_timeout": SHUTDOWN_SECONDS}


def abort(transport):
    """Closes a connection, whatever is under way. One over TLS that was closed twice before has forgotten it, and ends by itself."""
    with contextlib.suppress(AttributeError):
        transport.abort()
