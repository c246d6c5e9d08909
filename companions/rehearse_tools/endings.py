"""How a companion ends: by a status, and where something is wrong with one line on standard error, and without a traceback.

Statuses that all of them have: 2 what is read is refused, or it can't be written; 130 (as a shell tells it) Ctrl-C; 70 a fault of the
companion itself. A reader of standard output that has gone away isn't an error: the status is that of what was done.
"""
import signal

# Until run_main is there to catch it, Ctrl-C ends a companion as it ends a program that doesn't catch it: so this is imported first.
if signal.getsignal(signal.SIGINT) is signal.default_int_handler:
    signal.signal(signal.SIGINT, signal.SIG_DFL)

import os  # noqa: E402
import sys  # noqa: E402
import traceback  # noqa: E402
from typing import Callable, NoReturn, Optional  # noqa: E402

REFUSED, OWN_FAULT = 2, 70
# Set to anything, it shows where in the companion a fault of its own is.
SHOWS_TRACE = "REHEARSE_TRACE"


class Refused(Exception):
    """What was read is refused. The text names the file, and the line or the name at fault."""


def run_main(name: str, main: Callable[[], None]) -> NoReturn:
    """Runs a companion, and ends it."""
    if signal.getsignal(signal.SIGINT) is signal.SIG_DFL:
        signal.signal(signal.SIGINT, signal.default_int_handler)
    status = status_of(name, main)
    why = flush_fault()
    if why is not None:
        tell(name, why)
    sys.exit(status or (REFUSED if why is not None else 0))


def status_of(name: str, main: Callable[[], None]) -> int:
    """Runs a companion, tells what is wrong, and gives its status."""
    try:
        main()
    except SystemExit as end:
        return end.code if isinstance(end.code, int) else 0
    except KeyboardInterrupt:
        end_by_interrupt()
    except BrokenPipeError:
        drop_output()
    except Refused as fault:
        tell(name, str(fault))
        return REFUSED
    except OSError as fault:
        tell(name, why_of(fault))
        return REFUSED
    except Exception as fault:
        tell(name, own_fault(fault))
        return OWN_FAULT
    return 0


def tell(name: str, text: str) -> None:
    """Writes one line to standard error, if that is open."""
    if sys.stderr is not None:
        try:
            print(f"{name}: {' '.join(text.split(chr(10)))}", file=sys.stderr, flush=True)
        except OSError:
            pass


def why_of(fault: OSError) -> str:
    """What is told of an error of the system."""
    why = fault.strerror or str(fault)
    return f"{os.fsdecode(fault.filename)}: {why}" if isinstance(fault.filename, (str, bytes)) else why


def own_fault(fault: Exception) -> str:
    """What is told of a fault of the companion itself."""
    if SHOWS_TRACE in os.environ:
        traceback.print_exception(type(fault), fault, fault.__traceback__)
    place = traceback.extract_tb(fault.__traceback__)[-1]
    return (f"a fault of this companion, {type(fault).__name__}: {fault} ({os.path.basename(place.filename)} line {place.lineno}); "
            f"{SHOWS_TRACE}=1 shows all of it")


def end_by_interrupt() -> NoReturn:
    """Ends this process as Ctrl-C ends one that doesn't catch it, so that a loop of a shell ends too."""
    signal.signal(signal.SIGINT, signal.SIG_DFL)
    os.kill(os.getpid(), signal.SIGINT)
    sys.exit(128 + signal.SIGINT)


def drop_output() -> None:
    """Lets what is still to be written to standard output go nowhere."""
    if sys.stdout is not None:
        os.dup2(os.open(os.devnull, os.O_WRONLY), sys.stdout.fileno())


def flush_fault() -> Optional[str]:
    """Writes what is still to be written to standard output, and tells why it can't be."""
    try:
        if sys.stdout is not None:
            sys.stdout.flush()
    except BrokenPipeError:
        drop_output()
    except OSError as fault:
        drop_output()
        return f"standard output: {why_of(fault)}"
    return None


def write_bytes(data: bytes) -> None:
    """Writes bytes to standard output."""
    if sys.stdout is None:
        raise Refused("standard output: it is closed")
    try:
        sys.stdout.flush()
        sys.stdout.buffer.write(data)
        sys.stdout.buffer.flush()
    except BrokenPipeError:
        drop_output()
    except OSError as fault:
        drop_output()
        raise Refused(f"standard output: {why_of(fault)}") from None
