"""The sockets of the bridge: each operator's has a group of its own if one is given, and the owner's comes from systemd."""

import contextlib
import fcntl
import grp
import os
import pathlib
import socket
import stat

FIRST_FILE = 3
BACKLOG = 16


class NoSocket(Exception):
    """A socket cannot be made."""


def lock_folder(path):
    """Locks the folder of the sockets for this process, and returns the file that holds the lock."""
    try:
        file = os.open(path, os.O_RDONLY | os.O_DIRECTORY)
        fcntl.flock(file, fcntl.LOCK_EX | fcntl.LOCK_NB)
    except OSError as fault:
        raise NoSocket(f"cannot lock the folder {path}: {fault.strerror}") from fault
    return file


def group_of(operator, environment):
    """Returns the number of the group that GROUP_OPERATOR names, or None without that variable."""
    name = environment.get(f"GROUP_{operator}")
    if not name:
        return None
    try:
        return grp.getgrnam(name).gr_gid
    except KeyError as fault:
        raise NoSocket(f"GROUP_{operator}: there is no group {name}") from fault


def remove_socket(path):
    """Removes a socket that nobody listens on any more. A file of another kind stays."""
    with contextlib.suppress(OSError):
        if stat.S_ISSOCK(os.lstat(path).st_mode):
            os.unlink(path)


def make_socket(path, group=None):
    """Makes a socket that the user and the group of the process may open, or the user and another group. Nobody else may at any time."""
    remove_socket(path)
    made = socket.socket(socket.AF_UNIX, socket.SOCK_STREAM)
    try:
        # (no more rights than those of the user until the group is right)
        before = os.umask(0o177)
        try:
            made.bind(str(path))
        finally:
            os.umask(before)
        if group is not None:
            os.chown(path, -1, group)
        os.chmod(path, 0o660)
        made.listen(BACKLOG)
    except OSError as fault:
        made.close()
        remove_socket(path)
        raise NoSocket(f"cannot make the socket {path}: {fault.strerror}") from fault
    return made


def owners_socket(path, environment):
    """Returns the socket that systemd passes on, or one that is made."""
    if environment.get("LISTEN_PID") == str(os.getpid()) and environment.get("LISTEN_FDS") == "1":
        return socket.socket(fileno=FIRST_FILE)
    return make_socket(path)


def socket_of_operator(folder, operator, environment):
    return make_socket(pathlib.Path(folder, f"{operator}.sock"), group_of(operator, environment))


def notify(text, environment):
    """Reports a state to systemd, if it waits for one."""
    address = environment.get("NOTIFY_SOCKET")
    if address:
        with contextlib.suppress(OSError), socket.socket(socket.AF_UNIX, socket.SOCK_DGRAM) as sender:
            sender.connect("\0" + address[1:] if address.startswith("@") else address)
            sender.send(text.encode())
