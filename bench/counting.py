"""What one run of a command costs: instructions, processor time, and peak memory with its
output."""
import hashlib
import os
import re
import shutil
import subprocess
import sys

TIME = "/usr/bin/time"
# valgrind counts a `rep movsb` once for each octet, and glibc moves large blocks by it. So glibc is
# asked for moves by vectors.
TUNED = {
    "GLIBC_TUNABLES": (
        "glibc.cpu.x86_rep_movsb_threshold=1000000000:glibc.cpu.x86_rep_stosb_threshold=1000000000"
    )
}


def instructions(command):
    """The instructions of one run, or None without valgrind."""
    if not shutil.which("valgrind"):
        return None
    tool = ["valgrind", "--tool=cachegrind", "--cache-sim=no", "--cachegrind-out-file=/dev/null"]
    ran = subprocess.run(
        [*tool, *command], env={**os.environ, **TUNED}, stdin=subprocess.DEVNULL,
        stdout=subprocess.DEVNULL, stderr=subprocess.PIPE, check=False
    )
    counted = re.search(rb"I +refs: +([\d,]+)", ran.stderr)
    if not counted:
        sys.exit(f"valgrind counted nothing of {' '.join(command)}")
    return int(counted[1].replace(b",", b""))


def peak(command):
    """The peak memory of one run in KiB, or None without /usr/bin/time, and a digest of its output.
    The run must succeed."""
    timed = [TIME, "-q", "-f", "%M", *command] if os.access(TIME, os.X_OK) else command
    ran = subprocess.run(timed, stdin=subprocess.DEVNULL, capture_output=True, check=False)
    if ran.returncode:
        sys.exit(
            f"status {ran.returncode} of {' '.join(command)}: {ran.stderr.decode(errors='replace')}"
        )
    return int(ran.stderr) if timed is not command else None, hashlib.sha256(ran.stdout).digest()


def seconds(command, output=subprocess.DEVNULL):
    """The processor time of one run."""
    with subprocess.Popen(
        command, stdin=subprocess.DEVNULL, stdout=output, stderr=subprocess.STDOUT
    ) as run:
        _, status, usage = os.wait4(run.pid, 0)
        run.returncode = os.waitstatus_to_exitcode(status)
    return usage.ru_utime + usage.ru_stime
