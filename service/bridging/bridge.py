"""Passes lines of clients on to a channel, and its answers to the clients that they are for."""

import asyncio
import sys
import time
from collections import Counter

from service.watching.outputs import Outputs

from .connections import Connection
from .lines import Kind
from .listening import NoSocket, owners_socket, remove_socket, socket_of_operator
from .matching import Pending
from .outputs import Output, read_output
from .rights import Unreadable
from .rounds import LinePipe

# Connections to one socket. One whose client is gone counts until its lines are passed on.
MOST_CONNECTIONS = 8
SECONDS_TO_LOOK, SECONDS_OF_PLANT = 1.0, 5.0
# After this time without an answer, none is expected any more of lines that the channel has read.
SECONDS_SILENT = 10.0
OWNER = "owner"


class Bridge:
    """The clients of a channel, the lines that they have sent, and where its answers go. The key of the owner is None."""

    def __init__(self, plant, pipe, folder, environment):
        self.plant, self.folder, self.environment = plant, folder, environment
        self.pending, self.outputs = Pending(), Outputs()
        self.pipe = LinePipe(pipe, self.pending.add)
        self.counts, self.connections, self.leaving, self.servers = {}, {None: []}, [], {}
        self.last_traffic, self.plant_due = time.monotonic(), 0.0
        self.lock, self.following = asyncio.Lock(), None

    def say(self, text):
        print(f"plant_bridge: {text}", file=sys.stderr, flush=True)

    @property
    def rights(self):
        return self.plant.rights

    def counts_of(self, operator):
        """Returns the counts of an operator or of the owner. The name of an operator has no brackets."""
        return self.counts.setdefault(operator or f"({OWNER})", Counter(connections=0, passed=0))

    # Sockets

    async def listen(self, control):
        """Makes the sockets of the owner and of all operators."""
        await self.serve(None, owners_socket(control, self.environment))
        await self.follow_plant()

    async def serve(self, operator, made):
        loop = asyncio.get_running_loop()
        self.servers[operator] = await loop.create_unix_server(lambda: Connection(self, operator), sock=made)

    async def follow_plant(self):
        """Lets the sockets follow the operators of the plant file."""
        async with self.lock:
            self.close_gone()
            await self.open_new()

    def close_gone(self):
        """Closes the sockets of operators that are gone, and their connections."""
        for operator in set(self.servers) - {None, *self.rights.names}:
            self.servers.pop(operator).close()
            remove_socket(f"{self.folder}/{operator}.sock")
            for connection in self.connections.get(operator, [])[:]:
                connection.transport.abort()

    async def open_new(self):
        """Makes the sockets of operators that are new."""
        for operator in self.rights.names:
            if operator not in self.servers:
                try:
                    await self.serve(operator, socket_of_operator(self.folder, operator, self.environment))
                except NoSocket as fault:
                    self.say(fault)

    def read_plant(self):
        """Reads the plant file that is in force. Its rights hold at once, and its sockets follow."""
        try:
            if self.plant.read():
                self.say(f"the plant file in force has the operators {', '.join(self.rights.names)}")
                self.following = asyncio.get_running_loop().create_task(self.follow_plant())
        except Unreadable as fault:
            self.say(f"the rights stay as they are: {fault}")

    # Connections

    def join(self, connection):
        """Takes a new connection, if there are not too many."""
        self.drop_hung_up()
        here = self.connections.setdefault(connection.operator, [])
        leaving = sum(one.operator == connection.operator for one in self.leaving)
        connection.counts["connections"] += 1
        here.append(connection)
        if len(here) + leaving > MOST_CONNECTIONS:
            connection.counts["refused_connections"] += 1
            connection.send(Output(f"refused: connections: there are {MOST_CONNECTIONS}", "refused", {"reason": "connections"}))
            connection.flush()
            connection.transport.close()
            return
        connection.send(Output(f"connected operator {connection.operator}" if connection.operator else f"connected {OWNER}", "connected"))
        connection.flush()

    def leave(self, connection):
        """Forgets a connection once its whole lines are passed on."""
        self.connections[connection.operator].remove(connection)
        connection.counts["connections"] -= 1
        if connection.lines:
            self.leaving.append(connection)

    def drop_hung_up(self):
        for here in self.connections.values():
            for connection in here:
                if connection.has_hung_up():
                    connection.transport.abort()

    def lines_wait(self, connection=None):
        """Passes on the lines that wait: those of a connection, or of all."""
        self.leaving = [one for one in self.leaving if one.lines]
        for one in [connection] if connection else [*(one for here in self.connections.values() for one in here), *self.leaving]:
            if one.lines:
                self.pipe.rounds.add(one)
        self.pipe.pump()

    # Answers

    def take_answers(self, data):
        """Takes bytes of the answers of the channel. After a start, the plant file that is in force may be another one."""
        self.last_traffic = time.monotonic()
        for found in self.outputs.take(data):
            output = read_output(found)
            if output.type in ("start", "change"):
                self.read_plant()
            self.route(output)
        self.flush()
        self.lines_wait()

    def flush(self):
        for here in self.connections.values():
            for connection in here:
                connection.flush()

    def route(self, output):
        """Sends an output to the connections that it is for."""
        members, pending = output.members, self.pending
        if output.type == "start":
            self.route_start(output)
        elif output.type == "reply":
            self.send_operators(output, self.rights.operator_of.get(members["modem"]), pending.reply(members["modem"], members["bytes"]))
        elif output.type == "drop":
            self.send_operators(output, self.rights.operator_of.get(members["modem"]), pending.drop(members["modem"], members["cause"]))
        elif output.type == "frame":
            name = members["operator"]
            self.send_operators(output, name, pending.frame(name, members["frame"], name == self.rights.names[-1]), to_sender=False)
        elif output.type == "map":
            self.send_owners(output, pending.last_tick, is_map=True)
        elif output.type == "snapshot":
            self.send_owners(output, pending.of_kind(Kind.SNAPSHOT), to_all=False)
        elif output.type == "number":
            self.send_owners(output, pending.of_kind(Kind.RENUMBERING))
        else:
            entry = pending.fault() if output.text.startswith("fault: line ") else None
            self.send_owners(output, entry, to_all=entry is None or not entry.number)

    def send_operators(self, output, operator, entry, to_sender=True):
        """Sends an output to the clients of an operator, to those of the owner that want it, and to the client of its line."""
        sender, number = (entry.sender, entry.number) if entry is not None and entry.number else (None, None)
        for connection in self.connections.get(operator, ()) if operator else ():
            connection.send(output, number if connection is sender else None)
        for connection in self.connections[None]:
            if "all" in connection.wanted or to_sender and connection is sender:
                connection.send(output, number if connection is sender else None)

    def send_owners(self, output, entry, to_all=True, is_map=False):
        """Sends an output to the clients of the owner, or only to those that want all, and to the client of its line. Others may want MAPs."""
        sender, number = (entry.sender, entry.number) if entry is not None and entry.number else (None, None)
        for key, here in self.connections.items():
            for connection in here:
                is_owners = key is None and (to_all or output.type != "snapshot" and "all" in connection.wanted)
                if is_owners or connection is sender or is_map and "maps" in connection.wanted:
                    connection.send(output, number if connection is sender else None)

    def route_start(self, output):
        """Says that the program has started: to the owner by its line, to operators without the number of lines of the channel."""
        self.pending.restart()
        frame = output.members.get("frame")
        started = Output("started" + (f" frame {frame}" if frame is not None else ""), "started", output.members)
        for key, here in self.connections.items():
            for connection in here:
                connection.send(output if key is None else started)

    # Time

    async def look_around(self):
        """Does each second what no client and no answer begins."""
        while True:
            await asyncio.sleep(SECONDS_TO_LOOK)
            now = time.monotonic()
            self.drop_hung_up()
            if now >= self.plant_due and self.plant.has_journal():
                self.plant_due = now + SECONDS_OF_PLANT
                self.read_plant()
            if self.pending.entries and now - self.last_traffic > SECONDS_SILENT and self.pipe.is_empty():
                self.pending.forget()
                self.lines_wait()
