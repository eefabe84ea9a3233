"""Runs the channels of the trials: two replicas of each on two of the machines, a load for each, and a watch of its answers."""

import contextlib
import os
import pathlib
import signal
import subprocess
import sys
import time

from service.replication.engine import BROKEN, Consumer, Nodes, Publisher, answers_stream, declare, lines_stream
from tools import EXAMPLES, ROOT

from .trial_load import Load
from .trial_machines import PORT, Failed
from .trial_watch import Watch, compare, delays, read_log

PLANT = EXAMPLES / "plant_p2.toml"
MODEMS = (b"020000000001", b"020000000002", b"020000000003")
REPLICAS = 2
LOOK, NODE_LOOK = 0.05, 1


def wait_until(is_done, seconds, what, look=LOOK):
    """Waits until something is so, looks at it after so many seconds each, and returns how long that took."""
    begun = time.monotonic()
    while not is_done():
        if time.monotonic() - begun > seconds:
            raise Failed(f"not within {seconds:.0f} seconds: {what}")
        time.sleep(look)
    return time.monotonic() - begun


class ReplicaProcess:
    """A replica of a channel on a machine, which is started again where it is killed."""

    def __init__(self, site, name, place, machine):
        self.site, self.name, self.machine = site, name, machine
        self.label = f"{name}-{place}"
        self.state, self.log = site.folder / f"{self.label}.state", site.folder / f"{self.label}.log"
        self.process, self.log_start = None, 0
        self.start()

    def start(self):
        nodes = [it.address for it in self.site.machines]
        nodes.remove(self.machine.address)
        words = [sys.executable, "-P", "-m", "service.replication.replicate", "serve", self.name, PLANT, "--state", self.state, "--label", self.label,
                 "--snapshot-seconds", self.site.asked.snapshot_seconds, "--program", " ".join(map(str, self.site.program))]
        environment = {**os.environ, "PYTHONPATH": str(ROOT), "PLANT_NODES": " ".join(map(url_of, [self.machine.address, *nodes]))}
        self.log_start = self.log.stat().st_size if self.log.exists() else 0
        with self.log.open("ab") as log:
            self.process = subprocess.Popen(self.machine.inside(*words), env=environment, stdin=subprocess.DEVNULL, stdout=log, stderr=log,
                                            process_group=0)

    def kill(self):
        """Kills the replica and its program at once."""
        os.killpg(self.process.pid, signal.SIGKILL)
        self.process.wait()

    def consumes(self):
        """Tests whether it has a connection, by the last that it said since its start."""
        with self.log.open("rb") as log:
            log.seek(self.log_start)
            said = log.read().splitlines()
        return bool(said) and not said[-1].startswith((b"replicate: without", b"replicate: beginning"))

    def has_ended(self):
        return self.process.poll() is not None


def process_file(pid, name):
    """Returns the text of a file of a process, or nothing if the process has ended."""
    try:
        return pathlib.Path(f"/proc/{pid}/{name}").read_text()
    except (FileNotFoundError, ProcessLookupError):
        return ""


def children(pid):
    return [int(it) for it in process_file(pid, f"task/{pid}/children").split()]


def descendants(pid):
    return [pid, *(it for child in children(pid) for it in descendants(child))]


def processor_time(pid):
    """Returns the seconds of processor time that a process took so far."""
    fields = process_file(pid, "stat").rpartition(")")[2].split()
    return (int(fields[11]) + int(fields[12])) / os.sysconf("SC_CLK_TCK") if fields else 0


def url_of(address):
    return f"amqp://guest:guest@{address}:{PORT}/%2F"


class Site:
    """Machines with channels, and what publishes to them and reads from them."""

    def __init__(self, machines, asked, program, folder, kind):
        self.machines, self.asked, self.program, self.folder = machines, asked, program, pathlib.Path(folder)
        self.folder.mkdir()
        self.names = [f"{kind}{number}" for number in range(1, asked.channels + 1)]
        self.declare_all()
        self.replicas = {name: [ReplicaProcess(self, name, place, machines[(number + place) % len(machines)]) for place in range(REPLICAS)]
                         for number, name in enumerate(self.names)}
        self.watches = {name: Watch(name, self.nodes(number), self.folder / f"{name}.answers") for number, name in enumerate(self.names)}
        self.loads = {name: Load(name, self.nodes(number + 1), MODEMS, asked.ticks, asked.lines, asked.message_ms / 1000, seed=name)
                      for number, name in enumerate(self.names)}
        for thread in (*self.watches.values(), *self.loads.values()):
            thread.start()
        self.wait_for_replicas()

    def nodes(self, first=0):
        """Returns the nodes, from one of them on."""
        urls = [url_of(machine.address) for machine in self.machines]
        return Nodes(urls[first % len(urls):] + urls[:first % len(urls)])

    def declare_all(self):
        connection = self.nodes().connect()
        for name in self.names:
            declare(connection.channel(), name, len(self.machines), self.asked.most_bytes)
        connection.close()

    def active(self, name):
        """Returns the replica that claimed last."""
        label = self.watches[name].active or ""
        return next((it for it in self.replicas[name] if label.startswith(f"{it.label}.")), None)

    # What the trials wait for

    def wait_for_replicas(self):
        """Waits until both replicas of each channel consume, and each channel answers."""
        wait_until(self.all_replicas_consume, self.asked.seconds, "both replicas of each channel consume")
        self.wait_for_answers()

    def all_replicas_consume(self):
        """Tests whether each replica has a connection."""
        self.check_replicas()
        return all(it.consumes() for replicas in self.replicas.values() for it in replicas)

    def check_replicas(self):
        """Reports a replica that ended by itself."""
        ended = [it.label for replicas in self.replicas.values() for it in replicas if it.has_ended()]
        if ended:
            raise Failed(f"a replica ended by itself: {', '.join(ended)}")

    def wait_for_answers(self, seconds=None):
        """Waits until each channel has answered what was published by now, and is less than half a second behind. Fails after so many seconds."""
        end = time.monotonic() + (seconds or self.asked.seconds)
        goals = {name: load.published + 1 for name, load in self.loads.items()}
        most_behind = (self.asked.ticks + self.asked.lines) * 0.5
        for name, goal in goals.items():
            load, watch = self.loads[name], self.watches[name]
            wait_until(lambda: watch.last >= goal and load.published - watch.last < most_behind,
                       max(0, end - time.monotonic()), f"answers of {name}")

    def do_answer_within(self, seconds):
        """Waits until each channel answers again, for so many seconds at most."""
        with contextlib.suppress(Failed):
            self.wait_for_answers(seconds)

    def wait_for_node(self, machine):
        """Waits until the node of a machine has copies of all streams that grow."""
        machine.wait_for_node()
        # (each look costs a node that has just started some work)
        wait_until(lambda: self.node_serves(machine), self.asked.seconds, f"the node of {machine.address} has all streams", NODE_LOOK)

    def node_serves(self, machine):
        """Tests whether the node gives a new message of each stream from its own copy."""
        streams = [of(name) for name in self.names for of in (lines_stream, answers_stream)]
        seen = set()
        # (the client rejects messages that wait while it closes, which streams refuse)
        with contextlib.suppress(*BROKEN):
            connection = Nodes([url_of(machine.address)]).connect()
            for stream in streams:
                Consumer(connection, stream, -1, lambda _offset, _body, stream=stream: seen.add(stream), "next")
            end = time.monotonic() + 2
            while len(seen) < len(streams) and time.monotonic() < end:
                connection.process_data_events(time_limit=0.1)
            connection.close()
        return len(seen) == len(streams)

    # Measurements, while nothing is killed

    def processor_seconds(self):
        """Returns the processor time of each replica, active or not, of each program, and of each node."""
        active = [self.active(name) for name in self.names]
        replicas = [it for both in self.replicas.values() for it in both]
        processes = {"bridge of an active replica": [it.process.pid for it in replicas if it in active],
                     "bridge of a standby": [it.process.pid for it in replicas if it not in active],
                     "program": [child for it in replicas for child in children(it.process.pid)]}
        seconds = {role: [processor_time(pid) for pid in pids] for role, pids in processes.items()}
        return seconds | {"node of the engine": [sum(map(processor_time, descendants(it.node.pid))) for it in self.machines]}

    def delays(self):
        """Returns the seconds from the publication of each message to its answer."""
        return [it for name in self.names for it in delays(list(self.loads[name].times), list(self.watches[name].times))]

    # The end

    def end(self):
        """Ends the load and the replicas, and returns the comparison of each channel."""
        for load in self.loads.values():
            load.end()
        logs = {name: self.read_log(name) for name in self.names}
        for name, (count, _) in logs.items():
            watch = self.watches[name]
            wait_until(lambda: watch.last >= count, self.asked.seconds, f"the last answers of {name}")
        for replicas in self.replicas.values():
            for replica in replicas:
                replica.kill()
        plant = PLANT.read_bytes()
        return {name: compare(self.watches[name], count, self.program, plant, log) for name, (count, log) in logs.items()}

    def read_log(self, name):
        """Returns how many lines a channel has, and the file with them."""
        last, log = f"end of {name}".encode(), self.folder / f"{name}.lines"
        publisher = Publisher(self.nodes(), lines_stream(name))
        publisher.publish(last + b"\n")
        publisher.close()
        return read_log(name, self.nodes(), last, log), log
