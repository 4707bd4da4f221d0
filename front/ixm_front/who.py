"""Who is at the other end of a connection, as the system or a certificate tells it."""

from __future__ import annotations

import json
import os
import socket
import struct
from dataclasses import dataclass, field

SO_PEERGROUPS = 59  # of Linux; the module `socket` has no name for it
GROUPS = (64, 65536)  # how many there is room for at first, and how many there may be


@dataclass(frozen=True)
class Who:
    """A process of a user and its groups, or whoever has the certificate of this name."""

    pid: int = 0  # 0: of another machine, or of another namespace of processes
    uid: int = -1
    gid: int = -1
    groups: frozenset[int] = frozenset()
    name: str = ""
    address: str = ""
    key: str = field(init=False)  # whose tickets, watches and places are counted together
    text: str = field(init=False)  # the members of a record of the log

    def __post_init__(self) -> None:
        if self.name:
            key = f"cert {self.name}"
            text = f'"cert": {json.dumps(self.name)}, "address": {json.dumps(self.address)}'
        else:
            key = f"uid {self.uid}"
            text = f'"pid": {self.pid}, "uid": {self.uid}, "gid": {self.gid}'
        object.__setattr__(self, "key", key)
        object.__setattr__(self, "text", text)


def peer_of(sock: socket.socket) -> Who:
    """Who is at the other end of a Unix socket, as it was when it connected."""
    credentials = sock.getsockopt(socket.SOL_SOCKET, socket.SO_PEERCRED, struct.calcsize("3i"))
    pid, uid, gid = struct.unpack("3i", credentials)
    for room in GROUPS:
        try:
            packed = sock.getsockopt(socket.SOL_SOCKET, SO_PEERGROUPS, 4 * room)
        except OSError:
            continue
        return Who(pid, uid, gid, frozenset((gid, *struct.unpack(f"{len(packed) // 4}I", packed))))
    return Who(pid, uid, gid, frozenset((gid,)))


def cgroup_of(pid: int) -> str:
    """The control group of a process, which under systemd names its unit or its session; empty where it can't be read."""
    try:
        file = os.open(f"/proc/{pid}/cgroup", os.O_RDONLY | os.O_CLOEXEC)
    except OSError:
        return ""
    try:
        text = os.read(file, 4096).decode("ascii", "backslashreplace")
    except OSError:
        return ""
    finally:
        os.close(file)
    return text.partition("\n")[0].rpartition(":")[2]


def sees_all_users() -> bool:
    """Whether the system tells this process each user by its own number. Within a user namespace all others are one."""
    try:
        with open("/proc/self/uid_map", encoding="ascii") as file:
            return file.read().split() == ["0", "0", "4294967295"]
    except OSError:
        return False
