"""Ports for the tests, of which many run beside one another: each is one test's own for as long as its process lives."""
import random
import socket

# Below the ports that the system itself hands out, of which a connection may take one between a look and a `listen`.
PORTS = range(10000, 32000)
_claims = []


def free_port():
    """A port of this machine that nobody listens on, and that no other test is given. An abstract name says so, which goes with the process."""
    while True:
        port = random.choice(PORTS)
        claim = socket.socket(socket.AF_UNIX)
        try:
            claim.bind(f"\0portal-test-port-{port}")
            with socket.socket() as free:
                free.bind(("127.0.0.1", port))
        except OSError:
            claim.close()
            continue
        _claims.append(claim)
        return port
