"""Runs a command and tells what it said, the processor time that it took and its peak memory."""
import os
import subprocess


def measured(command, folder):
    """The text, the seconds of processor time and the peak bytes. The time is that of the command alone, however busy the machine is."""
    with open(folder / "said", "w+b") as said:
        run = subprocess.Popen(command, cwd=folder, stdout=said, stderr=said, stdin=subprocess.DEVNULL)
        _, status, use = os.wait4(run.pid, 0)
        run.returncode = os.waitstatus_to_exitcode(status)
        said.seek(0)
        text = said.read().decode("utf-8", "replace").strip()
    if run.returncode < 0:
        text += f" (ended by signal {-run.returncode})"
    return text, use.ru_utime + use.ru_stime, use.ru_maxrss * 1024
