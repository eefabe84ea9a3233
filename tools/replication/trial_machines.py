"""Makes three machines for the trials on one: each is a network namespace with an address, in which a node of RabbitMQ and replicas run.

All of it has to run in namespaces of its own (trials.py starts itself by `unshare`), so that the network of the host is left as it is, and
all processes end with the trial. Needs root.
"""

import os
import pathlib
import shutil
import socket
import subprocess
import time

NETWORK = "10.213.17"
PORT = 5672
SERVER = "/usr/lib/rabbitmq/bin/rabbitmq-server"
NODE_SECONDS = 300
# Seconds without a sign of life after which nodes take each other for dead, and after which nodes and clients drop their connection. Seconds
# after which a node gives up an attempt to connect to another one. While it tries (7 seconds if nothing is set), streams get no new leader.
TICK_SECONDS, HEARTBEAT_SECONDS, SETUP_SECONDS = 5, 5, 1

CONFIGURATION = """listeners.tcp.default = {port}
loopback_users = none
heartbeat = {heartbeat}
cluster_partition_handling = pause_minority
cluster_formation.peer_discovery_backend = classic_config
disk_free_limit.absolute = 200MB
vm_memory_high_watermark.absolute = 2GB
log.file.level = info
"""


class Failed(Exception):
    """A command failed, or something did not come in time."""


def run(*words):
    """Runs a command, and returns what it printed."""
    done = subprocess.run(words, stdout=subprocess.PIPE, stderr=subprocess.STDOUT, text=True, check=False)
    if done.returncode:
        raise Failed(f"{' '.join(map(str, words))} ended with status {done.returncode}: {done.stdout.strip()}")
    return done.stdout


def make_hub():
    """Makes the bridge that joins the machines, with an address for the trial itself."""
    run("ip", "link", "set", "lo", "up")
    run("ip", "link", "add", "hub", "type", "bridge")
    run("ip", "address", "add", f"{NETWORK}.254/24", "dev", "hub")
    run("ip", "link", "set", "hub", "up")


class Machine:
    """A machine: a namespace, its link to the hub, and a node of the engine."""

    def __init__(self, number, folder):
        self.number = number
        self.address = f"{NETWORK}.{number}"
        self.folder = pathlib.Path(folder)
        self.node = None
        # (it holds the namespace)
        self.holder = subprocess.Popen(["unshare", "--net", "sleep", "infinity"])
        self.join()

    def join(self):
        """Gives the namespace its link and its address."""
        ours = os.readlink("/proc/self/ns/net")
        while os.readlink(f"/proc/{self.holder.pid}/ns/net") == ours:
            time.sleep(0.01)
        run("ip", "link", "add", f"to{self.number}", "type", "veth", "peer", "name", "eth0", "netns", str(self.holder.pid))
        run("ip", "link", "set", f"to{self.number}", "master", "hub", "up")
        for words in (("link", "set", "lo", "up"), ("address", "add", f"{self.address}/24", "dev", "eth0"), ("link", "set", "eth0", "up")):
            run(*self.inside("ip", *words))

    def inside(self, *words):
        """Returns the words that run a command in the machine."""
        return ["nsenter", f"--net=/proc/{self.holder.pid}/ns/net", "--", *map(str, words)]

    def cut(self, is_cut):
        """Cuts the machine off from the others, or ends that. No end of a connection is told: packets are lost."""
        run("ip", "link", "set", f"to{self.number}", "down" if is_cut else "up")

    def write_configuration(self, machines):
        """Writes the configuration of the node, which names the nodes of its cluster."""
        self.folder.mkdir(parents=True)
        (self.folder / ".erlang.cookie").write_text("melfjits")
        (self.folder / ".erlang.cookie").chmod(0o400)
        (self.folder / "enabled_plugins").write_text("[].\n")
        lines = CONFIGURATION.format(port=PORT, heartbeat=HEARTBEAT_SECONDS)
        lines += "".join(f"cluster_formation.classic_config.nodes.{it.number} = rabbit@{it.address}\n" for it in machines)
        (self.folder / "rabbitmq.conf").write_text(lines)

    def environment(self):
        """Returns the environment of the node: its name, and folders of its own."""
        places = {"HOME": "", "RABBITMQ_MNESIA_BASE": "data", "RABBITMQ_LOG_BASE": "log", "RABBITMQ_CONFIG_FILE": "rabbitmq.conf",
                  "RABBITMQ_ENABLED_PLUGINS_FILE": "enabled_plugins", "RABBITMQ_CONF_ENV_FILE": "none"}
        names = {"RABBITMQ_NODENAME": f"rabbit@{self.address}", "RABBITMQ_USE_LONGNAME": "true",
                 "RABBITMQ_SERVER_ADDITIONAL_ERL_ARGS": f"-kernel net_ticktime {TICK_SECONDS} -kernel net_setuptime {SETUP_SECONDS} +S 2:2"}
        return {**os.environ, **{name: str(self.folder / place) for name, place in places.items()}, **names}

    def start_node(self):
        """Starts the node, in a namespace of processes that ends as a whole with its first one."""
        words = ["unshare", "--pid", "--fork", "--kill-child", "--mount-proc", SERVER]
        with (self.folder / "output").open("ab") as output:
            self.node = subprocess.Popen(self.inside(*words), env=self.environment(), cwd=self.folder, stdin=subprocess.DEVNULL,
                                         stdout=output, stderr=subprocess.STDOUT)

    def kill_node(self):
        """Kills the node, by a signal that it cannot handle."""
        self.node.kill()
        self.node.wait()

    def is_up(self):
        """Tests whether the node accepts connections. Fails if the node has ended."""
        if self.node.poll() is not None:
            raise Failed(f"the node of {self.address} ended with status {self.node.returncode}: see {self.folder}/output")
        try:
            with socket.create_connection((self.address, PORT), timeout=1):
                return True
        except OSError:
            return False

    def is_up_within(self, seconds):
        """Waits until the node accepts connections, for so many seconds at most. Returns whether it does."""
        end = time.monotonic() + seconds
        while not (is_up := self.is_up()) and time.monotonic() < end:
            time.sleep(0.1)
        return is_up

    def wait_for_node(self):
        """Waits until the node accepts connections."""
        if not self.is_up_within(NODE_SECONDS):
            raise Failed(f"the node of {self.address} is not up after {NODE_SECONDS} seconds")


def start_cluster(folder, count=3):
    """Starts so many machines with a node each, which join to one cluster, and returns them."""
    missing = [command for command in ("ip", "unshare", "nsenter", SERVER) if not shutil.which(command)]
    if missing:
        raise Failed(f"these commands are missing: {', '.join(missing)}")
    make_hub()
    machines = [Machine(number, pathlib.Path(folder, f"node{number}")) for number in range(1, count + 1)]
    for machine in machines:
        # (one after the other: nodes that start at once wait for each other's locks)
        machine.write_configuration(machines)
        machine.start_node()
        machine.wait_for_node()
    return machines
