"""Runs a program under the filter of system calls of a systemd unit: `unit_filter.py UNIT PROGRAM WORD..`"""
import ctypes
import ctypes.util
import errno
import functools
import os
import re
import subprocess
import sys
from pathlib import Path

# The actions of libseccomp.
KILL_PROCESS, ERRNO, ALLOW = 0x80000000, 0x00050000, 0x7FFF0000
# What systemd allows in any case.
ALWAYS = "@default execve exit exit_group getrlimit rt_sigreturn sigreturn".split()


def has_library() -> bool:
    """Returns whether there is what makes filters."""
    return ctypes.util.find_library("seccomp") is not None


@functools.cache
def calls_of(name: str) -> frozenset[str]:
    """Returns the system calls of a set and of the sets in it, as systemd lists them, or the call of that name."""
    if name[0] != "@":
        return frozenset([name])
    listed = subprocess.run(
        ["systemd-analyze", "syscall-filter", "--no-pager", name], capture_output=True, text=True, check=True
    ).stdout
    return frozenset().union(*map(calls_of, re.findall(r"^ {4}(@?[\w-]+)$", listed, re.M)))


def allowed_calls(unit: Path) -> set[str]:
    """Returns the calls that a unit's lines allow, of which the first allows: each adds calls, or takes them away."""
    allowed: set[str] = set()
    for sign, names in re.findall(r"^SystemCallFilter=(~?)(.*)$", unit.read_text(encoding="utf-8"), re.M):
        calls = {call for it in names.split() for call in calls_of(it)}
        assert allowed or not sign, "the unit's first filter forbids calls"
        allowed = allowed - calls if sign else allowed | calls
    return allowed.union(*map(calls_of, ALWAYS))


def action_of(unit: Path) -> int:
    """Returns what becomes of other calls: an error, or the end of the process."""
    named = re.search(r"^SystemCallErrorNumber=(\w+)$", unit.read_text(encoding="utf-8"), re.M)
    return ERRNO | getattr(errno, named[1]) if named else KILL_PROCESS


def apply(unit: Path) -> None:
    """Applies a unit's filter to this process, for good."""
    calls, action = allowed_calls(unit), action_of(unit)
    library = ctypes.CDLL(ctypes.util.find_library("seccomp"), use_errno=True)
    library.seccomp_init.restype = ctypes.c_void_p
    context = ctypes.c_void_p(library.seccomp_init(ctypes.c_uint32(action)))
    for name in sorted(calls):
        # (a negative number is of a call that this machine doesn't have)
        number = library.seccomp_syscall_resolve_name(name.encode())
        if number >= 0 and library.seccomp_rule_add(context, ctypes.c_uint32(ALLOW), number, 0):
            sys.exit(f"{name}: no rule of a filter")
    if library.seccomp_load(context):
        sys.exit("the filter can't be loaded")


def main() -> None:
    apply(Path(sys.argv[1]))
    os.execv(sys.argv[2], sys.argv[2:])


if __name__ == "__main__":
    main()
