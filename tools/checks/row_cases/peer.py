"""The other side of a line, which plays a script over TCP on this machine."""

import select
import socket
import time

HOST = "127.0.0.1"
QUIET_SECONDS = 0.4  # one quiet wait
LONGEST_SECONDS = 120
POLL_SECONDS = 0.02
PIECE = 4096
UNCALLED = [("uncalled", None)]


class Differs(Exception):
    """What the other side met is not in its script."""


def bound():
    """A socket at a port that nobody has. A program may still listen there."""
    place = socket.socket()
    place.setsockopt(socket.SOL_SOCKET, socket.SO_REUSEADDR, 1)
    place.bind((HOST, 0))
    return place


def waited(ready, process, what):
    """What comes of asking again and again until it is there, while the program runs."""
    end = time.monotonic() + LONGEST_SECONDS
    while time.monotonic() < end:
        is_over = process.poll() is not None
        there = ready()
        if there is not None:
            return there
        if is_over:
            break
        time.sleep(POLL_SECONDS)
    raise Differs(what)


def called(place):
    """The call at a socket, if there is one."""
    if select.select([place], [], [], 0)[0]:
        return place.accept()[0]
    return None


def calling(address):
    """A call to an address, if somebody is there."""
    try:
        return socket.create_connection(address, LONGEST_SECONDS)
    except ConnectionRefusedError:
        return None


def shown(data):
    """Some bytes for a reader."""
    return f"{data[:80].hex(' ') or 'nothing'}{' ..' if len(data) > 80 else ''}"


def heard(line, seconds, most):
    """What comes within some seconds, empty at the end of the line; None where it is quiet."""
    line.settimeout(seconds)
    try:
        return line.recv(most)
    except TimeoutError:
        return None
    except ConnectionError:
        return b""


def hear(line, wanted):
    """Hears these bytes."""
    got = b""
    while got != wanted:
        piece = heard(line, LONGEST_SECONDS, len(wanted) - len(got))
        got += piece or b""
        if not piece or not wanted.startswith(got):
            raise Differs(f"heard {shown(got)}{'' if piece else ' and no more'}, in place of {shown(wanted)}")


def keep_quiet(line, waits):
    """Hears nothing for so many quiet waits."""
    got = heard(line, waits * QUIET_SECONDS, PIECE)
    if got is not None:
        raise Differs(f"heard {shown(got)}, in place of {waits} quiet waits")


def take(line, verb, what):
    """Takes a step; whether the line is still open."""
    if verb == "hears":
        hear(line, what)
    elif verb == "says":
        line.sendall(what)
    elif verb == "quiet":
        keep_quiet(line, what)
    return verb != "closes"


def play(line, steps):
    """Takes the steps of a script. After the last one nothing more is heard."""
    with line:
        line.setsockopt(socket.IPPROTO_TCP, socket.TCP_NODELAY, 1)
        if all(take(line, verb, what) for verb, what in steps):
            rest = heard(line, LONGEST_SECONDS, PIECE)
            if rest != b"":
                raise Differs(f"heard {shown(rest or b'')} after the last step, in place of the end")


def hold_uncalled(place, process):
    """Holds that a program calls nobody until its end."""
    try:
        waited(lambda: called(place), process, "").close()
    except Differs:
        return
    raise Differs("a call that the case does not have")


def meet(place, run, process):
    """Plays the other side of a run, whose line is at a socket."""
    if run.steps is None:
        return
    if run.steps == UNCALLED:
        hold_uncalled(place, process)
    elif run.is_caller:
        play(waited(lambda: calling(place.getsockname()), process, "nobody served"), run.steps)
    else:
        play(waited(lambda: called(place), process, "nobody called"), run.steps)
