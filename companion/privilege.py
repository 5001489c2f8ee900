"""What a process may do: the companion CAP_NET_RAW, to give sockets a device that is made anew, CAP_NET_BIND_SERVICE, to open those of
further links, and with `ip` CAP_NET_ADMIN; the router nothing."""

import ctypes
import os
import pwd
import resource
import signal
import struct

from table import Fault

BIND, NET_ADMIN, NET_RAW = 10, 12, 13
NAMES = {NET_ADMIN: "CAP_NET_ADMIN", NET_RAW: "CAP_NET_RAW"}
# Of prctl(2): PR_SET_PDEATHSIG, PR_SET_KEEPCAPS, PR_CAPBSET_DROP, PR_SET_NO_NEW_PRIVS, PR_CAP_AMBIENT and two more.
DEATH_SIGNAL, KEEP, DROP_BOUND, NO_NEW_PRIVILEGES, AMBIENT, RAISE, CLEAR_ALL = 1, 8, 24, 38, 47, 2, 4
VERSION_3 = 0x20080522
libc, parent = ctypes.CDLL(None, use_errno=True), os.getpid()


def prctl(*words):
    return libc.prctl(*[ctypes.c_ulong(word) for word in (*words, 0, 0, 0, 0)[:5]])


def keep(*capabilities):
    """Just these are permitted, effective and inheritable. A program that is started gets none: none is ambient."""
    bits = sum(1 << capability for capability in capabilities)
    prctl(AMBIENT, CLEAR_ALL)
    if libc.capset(struct.pack("=Ii", VERSION_3, 0), struct.pack("=6I", bits, bits, bits, 0, 0, 0)) != 0:
        raise Fault(f"needs {' and '.join(NAMES[capability] for capability in capabilities if capability in NAMES)}", 3)


def give(folder, user):
    """The folder is that user's from here on."""
    try:
        os.chown(folder, account_of(user).pw_uid, -1)
    except PermissionError:
        raise Fault(f"cannot give {folder} to {user}: needs CAP_CHOWN", 3) from None


def become(account):
    """From here on this process is of that account, and of no other group than its own."""
    try:
        os.setgroups([])
        os.setresgid(*[account.pw_gid] * 3)
        os.setresuid(*[account.pw_uid] * 3)
    except PermissionError:
        raise Fault(f"cannot become {account.pw_name}: needs CAP_SETGID and CAP_SETUID", 3) from None


def is_permitted(capability):
    """Whether this process has it."""
    bits = ctypes.create_string_buffer(24)
    libc.capget(struct.pack("=Ii", VERSION_3, 0), bits)
    return bool(struct.unpack("=6I", bits)[1] >> capability & 1)


def account_of(user):
    """The account of that name, or a fault."""
    try:
        return pwd.getpwnam(user)
    except KeyError:
        raise Fault(f"there is no account `{user}`" if user else "user is missing: root has to name an account") from None


def drop(user, *capabilities):
    """From here on this process is that user, where root started it, and has just these capabilities, and CAP_NET_BIND_SERVICE if it
    had it: the system may give port 521 to everybody. It may have as many files as the system lets it, for the sockets of the links,
    which the router has twice."""
    capabilities += (BIND,) * is_permitted(BIND)
    most = resource.getrlimit(resource.RLIMIT_NOFILE)[1]
    resource.setrlimit(resource.RLIMIT_NOFILE, (most, most))
    if os.geteuid() == 0 and (account := account_of(user)).pw_uid != 0:
        for capability in set(range(64)) - set(capabilities):
            prctl(DROP_BOUND, capability)
        prctl(KEEP, 1)
        become(account)
    prctl(NO_NEW_PRIVILEGES, 1)
    keep(*capabilities)


def hand_on():
    """What a child does before it is `ip` that changes routes: it keeps the capability."""
    prctl(AMBIENT, RAISE, NET_ADMIN)


def leave():
    """What any other child does first: it keeps nothing, and ends where the companion does, however that ends."""
    keep()
    prctl(DEATH_SIGNAL, signal.SIGTERM)
    if os.getppid() != parent:
        os._exit(3)
