"""What the programs of this folder share: where a crate's program is, and how long and large a command was."""
import os
import subprocess
import sys

TOP = os.path.dirname(os.path.dirname(os.path.abspath(__file__)))


def program(crate):
    """The built program of a crate. Ends this program where there is none."""
    path = os.path.join(TOP, "crates", crate, "out", crate)
    if not os.access(path, os.X_OK):
        sys.exit(f"the program isn't built: run rt ci first, or rt run in crates/{crate}")
    return path


def timed(command, printed, folder=None):
    """Seconds of processor time, the most bytes of memory, and the status of a command in a folder, whose output goes to a file.

    Other programs that run meanwhile change the time on the clock by much more than this one.
    """
    child = subprocess.Popen(command, cwd=folder, stdout=printed)
    _, ended, usage = os.wait4(child.pid, 0)
    child.returncode = os.waitstatus_to_exitcode(ended)
    return usage.ru_utime + usage.ru_stime, usage.ru_maxrss * 1024, child.returncode
