"""Runs a program once, within limits, and tells how it ended and what it took."""
import glob
import os
import re
import resource
import signal
from dataclasses import dataclass

TIMER = "/usr/bin/time"  # GNU time is small: a child of a script's own begins with the script's memory
WAITS, LOOKS = 3, 2  # a call is ended that waits for something at so many looks, so many seconds apart
HAS_TIMER = os.access(TIMER, os.X_OK)


@dataclass
class Call:
    code: int  # the exit code; below 0 the signal that ended the program
    seconds: float  # of processor time
    late: bool  # whether the time limit was passed
    kilobytes: int | None = None  # the peak of memory, where it is measured

    def ended(self, seconds):
        """How the call ended, in words; the limit was so many seconds."""
        if self.late:
            return f"over {seconds} s"
        return f"status {self.code}" if self.code >= 0 else f"signal {-self.code}"


def timed(command, seconds, out=os.devnull, err=os.devnull):
    """One call, of at most so many seconds of processor time; one that waits for something is ended after as
    many by the clock."""
    how = os.O_WRONLY | os.O_CREAT | os.O_TRUNC
    to = [(os.POSIX_SPAWN_OPEN, at, path, how, 0o600) for at, path in ((1, out), (2, err))]
    to.append((os.POSIX_SPAWN_OPEN, 0, os.devnull, os.O_RDONLY, 0))
    stopped, waits = [], [0]

    def stop(*_):
        waits[0] = 0 if is_running(child) else waits[0] + 1
        if waits[0] == WAITS:
            stopped.append(True)
            os.killpg(child, signal.SIGKILL)

    before = signal.signal(signal.SIGALRM, stop)
    child = os.posix_spawn(command[0], command, os.environ, file_actions=to, setpgroup=0)
    try:
        signal.setitimer(signal.ITIMER_REAL, seconds, LOOKS)
        try:
            resource.prlimit(child, resource.RLIMIT_CPU, (seconds, seconds + 1))
        except ProcessLookupError:
            pass
        _, status, used = os.wait4(child, 0)
    except BaseException:
        os.killpg(child, signal.SIGKILL)
        raise
    finally:
        signal.setitimer(signal.ITIMER_REAL, 0)
        signal.signal(signal.SIGALRM, before)
    code, spent = os.waitstatus_to_exitcode(status), used.ru_utime + used.ru_stime
    return Call(code, spent, bool(stopped) or is_late(code, spent, seconds))


def is_running(group):
    """Whether a process of the group could go on if it had a processor, which it may lack for long, or the
    first of them has ended."""
    for file in glob.glob("/proc/[0-9]*/stat"):
        try:
            with open(file, encoding="ascii", errors="replace") as stat:
                pid, _, rest = stat.read().partition(" ")
            state, _, of, *_ = rest.rpartition(")")[2].split()
        except (OSError, ValueError):
            continue
        if int(of) == group and (state in "RD" or state == "Z" and int(pid) == group):
            return True
    return False


def is_late(code, spent, seconds):
    return code == -signal.SIGXCPU or (code == -signal.SIGKILL and spent >= seconds)


def measured(command, seconds, note, out=os.devnull, err=os.devnull, stack="unlimited", memory="unlimited"):
    """One call with its peak of memory, a stack and an address space of at most so many kilobytes. The file
    `note` is written. Where GNU time isn't there memory isn't known."""
    limits = f"ulimit -c 0; ulimit -S -s {stack}; ulimit -v {memory}; ulimit -S -t {seconds}; "
    limits += f"ulimit -H -t {seconds + 1}"
    shell = ["/bin/sh", "-c", limits + '; exec "$@"', "sh", *command]
    if not HAS_TIMER:
        return timed(shell, seconds, out, err)
    call = timed([TIMER, "-q", "-f", "%M", "-o", note, *shell], seconds, out, err)
    if call.late:
        return call
    with open(note, encoding="ascii") as file:
        told = file.read()
    ended = re.search(r"terminated by signal (\d+)", told)
    # where a signal ends the program the timer's code is 128 and the signal; some timers note it on a line
    code = call.code - 128 if call.code > 128 and (ended or call.code - 128 in DEADLY) else 0
    if code:
        call.code = -code
        call.late = is_late(call.code, call.seconds, seconds)
    call.kilobytes = int(told.split()[-1])
    return call


DEADLY = {int(sig) for sig in signal.Signals}
