"""A port of this machine that the system gives to nobody else while a process holds it. Who asks for it by its number may
listen there, at any address of this machine.

    python3 tools/product/held_port.py

prints such a port, and holds it until nobody reads what it prints any more.
"""
import select
import socket
import sys
from contextlib import contextmanager


@contextmanager
def held_port():
    """Holds a port. Unless somebody listens there, a call to it is refused."""
    with socket.socket() as holder:
        holder.setsockopt(socket.SOL_SOCKET, socket.SO_REUSEADDR, 1)  # whoever sets it too may listen at a port that is only held
        holder.bind(("", 0))
        yield holder.getsockname()[1]


def main():
    """Prints a port, and holds it until the reader is gone."""
    with held_port() as port:
        print(port, flush=True)
        reader = select.poll()
        reader.register(sys.stdout, 0)  # it is told of no event but the end
        reader.poll()


if __name__ == "__main__":
    main()
