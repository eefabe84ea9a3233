"""Puts Unix stream sockets before a channel: one for each operator of its plant file, and one for the owner. The unit plant-bridge@.service
runs it, and docs/BRIDGE.md describes what clients write and read.

    plant_bridge PLANT PIPE CONTROL SOCKETS

PLANT is the plant file, and PIPE the pipe of the channel. CONTROL is the socket of the owner. SOCKETS is the folder in which each operator
has its socket, OPERATOR.sock. Variables of the environment:

    ANSWERS          the file to which the channel appends its answers
    FOLDER           the folder of the channel: its journal has the plant file that is in force
    GROUP_OPERATOR   the group whose members may open the socket of the operator with this name
    LISTEN_FDS       systemd passes the socket of the owner: CONTROL is not made

Without a GROUP_OPERATOR, the group of the process may open the socket. Nothing here is proved.

Exit status: 2 wrong arguments, or no ANSWERS; 3 the plant file cannot be read; 6 a socket cannot be made, or ANSWERS cannot be followed.
"""

import asyncio
import json
import os
import signal
import subprocess
import sys

from service import show_help

from .bridge import Bridge
from .listening import NoSocket, lock_folder, notify
from .rights import PlantInForce, Unreadable


class Ended(Exception):
    """The process ends with a status, and says why."""

    def __init__(self, status, why):
        super().__init__(why)
        self.status = status


class Answers(asyncio.Protocol):
    """The answers of the channel, as they come."""

    def __init__(self, bridge, ended):
        self.bridge, self.ended = bridge, ended

    def data_received(self, data):
        self.bridge.take_answers(data)

    def connection_lost(self, _fault):
        if not self.ended.done():
            self.ended.set_result(Ended(6, "the answers are not followed any more"))


def follow(path):
    """Starts a process that follows a file of answers from its present end, also when it is shortened or replaced."""
    place = os.path.getsize(path) if os.path.exists(path) else 0
    words = ["tail", f"--bytes=+{place + 1}", "--follow=name", "--retry", "--", path]
    return subprocess.Popen(words, stdout=subprocess.PIPE, env={**os.environ, "LC_ALL": "C"})


async def run(bridge, control, answers):
    """Serves until SIGTERM comes or the answers end. Returns why it has ended, or None."""
    loop = asyncio.get_running_loop()
    ended = loop.create_future()
    for number in (signal.SIGTERM, signal.SIGINT):
        loop.add_signal_handler(number, lambda: ended.done() or ended.set_result(None))
    tail = follow(answers)
    try:
        await loop.connect_read_pipe(lambda: Answers(bridge, ended), tail.stdout)
        await bridge.listen(control)
        looking = loop.create_task(bridge.look_around())
        looking.add_done_callback(lambda task: task.cancelled() or ended.done() or ended.set_exception(task.exception()))
        notify(f"READY=1\nSTATUS=sockets for the owner and for {', '.join(bridge.rights.names)}", bridge.environment)
        why = await ended
        looking.cancel()
        bridge.say(f"ends after {json.dumps(bridge.counts, sort_keys=True)}")
        return why
    finally:
        tail.kill()
        tail.wait()


def serve(plant, pipe, control, sockets, environment):
    if not environment.get("ANSWERS"):
        raise Ended(2, "the answers are in no file (ANSWERS)")
    in_force = PlantInForce(plant, environment.get("FOLDER", ""))
    try:
        lock = lock_folder(sockets)
        in_force.read()
        why = asyncio.run(run(Bridge(in_force, pipe, sockets, environment), control, environment["ANSWERS"]))
        os.close(lock)
    except Unreadable as fault:
        raise Ended(3, str(fault)) from fault
    except NoSocket as fault:
        raise Ended(6, str(fault)) from fault
    if why is not None:
        raise why


def main():
    show_help(__doc__)
    try:
        if len(sys.argv) != 5:
            raise Ended(2, "usage: plant_bridge PLANT PIPE CONTROL SOCKETS")
        serve(*sys.argv[1:], dict(os.environ))
    except Ended as fault:
        print(f"plant_bridge: {fault}", file=sys.stderr)
        sys.exit(fault.status)


if __name__ == "__main__":
    main()
