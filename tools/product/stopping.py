"""How a tool ends if it is stopped: as by a refusal, so that nothing that is half made is left."""
import signal
import sys

SIGNALS = (signal.SIGTERM, signal.SIGINT, signal.SIGHUP)


def stop_as_refused(tool):
    """Has each of these signals end a tool with a line and status 1."""
    def stop(number, _):
        sys.exit(f'{tool}: stopped by {signal.Signals(number).name}')
    for one in SIGNALS:
        signal.signal(one, stop)
