"""Tries replicated channels on one machine: kills replicas and nodes of RabbitMQ and cuts machines off, and compares all answers.

    tools/run ci/replication_trials [--short] [--times N] [--channels N] [--kinds KIND,..] ..

Three network namespaces of this machine are three machines, each with a node of a RabbitMQ cluster and replicas. Each channel has two
replicas on two machines, a load of script lines and ticks, and a reader of its answers. Each kind of trial has channels of its own:

    replica      the active replica of each channel is killed, with its program
    both         both replicas of each channel are killed
    node         the node of RabbitMQ on one of the machines is killed
    partition    one machine is cut off from the others, with its replicas: its packets are lost, and no connection is reset
    machine      the node on one machine and its replicas are killed at once
    steady       nothing is killed: prints processor time and delays, in place of a row of the table

After each, what was killed is started again, at the latest half a minute after it was killed, as a manager of services does. The next trial
waits until it serves, and until all channels answer. A node that was cut off, and is not up half a minute later, is killed and started: this
happens with RabbitMQ 3.10. At the end of a kind, what a reader got is compared
with what the program answers to the lines of the log, by one process that was never killed. The table has for each kind how often it was
tried, the longest pause between two answers of a channel from the fault to the end of its repair (median and worst over the channels), and
how many answers were lost, came twice or were different.

Installs Debian's packages rabbitmq-server, python3-pika, iproute2 and util-linux if they are missing, and starts no service of theirs.
Needs root. All processes and interfaces are in namespaces of their own and end with the command. The files are in a temporary folder.
"""

import argparse
import os
import pathlib
import shutil
import statistics
import subprocess
import sys
import tempfile
import time

from service.replication import engine
from tools.compare.program import PROGRAM

PACKAGES = ("rabbitmq-server", "python3-pika", "iproute2", "util-linux")
PARTITION_SECONDS, STEADY_SECONDS, REPAIR_SECONDS = 15, 30, 30


def read_arguments():
    ask = argparse.ArgumentParser("replication_trials", description=__doc__, formatter_class=argparse.RawDescriptionHelpFormatter)
    ask.add_argument("--short", action="store_true", help="two channels, each kind once, and a small load")
    ask.add_argument("--times", metavar="N", type=int, default=5, help="how often each kind is tried (5)")
    ask.add_argument("--minutes", metavar="N", type=float, default=600, help="no trial of a kind begins after so many minutes (600)")
    ask.add_argument("--channels", metavar="N", type=int, default=8, help="channels (8)")
    ask.add_argument("--ticks", metavar="N", type=float, default=500, help="ticks a second of each channel (500)")
    ask.add_argument("--lines", metavar="N", type=float, default=250, help="other lines a second of each channel (250)")
    ask.add_argument("--message-ms", metavar="N", type=float, default=20, help="milliseconds whose lines are published as one message (20)")
    ask.add_argument("--kinds", metavar="KIND,..", default="replica,both,node,partition", help="the kinds of trials (replica,both,node,partition)")
    ask.add_argument("--snapshot-seconds", metavar="N", type=float, default=5, help="seconds between two snapshots of a replica (5)")
    ask.add_argument("--program", metavar="WORDS", default=PROGRAM, help="the program, with blanks between its words")
    ask.add_argument("--rest-seconds", metavar="N", type=float, default=3, help="seconds between two trials (3)")
    ask.add_argument("--seconds", metavar="N", type=float, default=120, help="after so many seconds a trial has failed (120)")
    ask.add_argument("--most-bytes", metavar="N", type=int, default=8 << 30, help="bytes that a stream keeps (8 GiB)")
    ask.add_argument("--keep", metavar="FOLDER", help="work in this new folder, and keep it")
    ask.add_argument("--inside", action="store_true", help=argparse.SUPPRESS)
    asked = ask.parse_args()
    if asked.short:
        asked.channels, asked.ticks, asked.lines, asked.message_ms, asked.rest_seconds = 2, 50, 25, 40, 1
    unknown = set(asked.kinds.split(",")) - set(KINDS)
    if unknown:
        ask.error(f"no such kind: {', '.join(sorted(unknown))}")
    return asked


# The kinds: each does the fault, waits until all channels answer again, for half a minute at most, and repairs

def kill_active(site, _turn):
    killed = [site.active(name) for name in site.names]
    for replica in killed:
        replica.kill()
    site.do_answer_within(REPAIR_SECONDS)
    for replica in killed:
        replica.start()


def kill_both(site, _turn):
    killed = [replica for replicas in site.replicas.values() for replica in replicas]
    for replica in killed:
        replica.kill()
    for replica in killed:
        replica.start()


def kill_node(site, turn):
    machine = site.machines[turn % len(site.machines)]
    machine.kill_node()
    site.do_answer_within(REPAIR_SECONDS)
    machine.start_node()
    site.wait_for_node(machine)


def cut_off(site, turn):
    machine = site.machines[turn % len(site.machines)]
    machine.cut(True)
    time.sleep(PARTITION_SECONDS)
    site.do_answer_within(REPAIR_SECONDS)
    machine.cut(False)
    if not machine.is_up_within(REPAIR_SECONDS):
        print(f"the node of {machine.address} did not come back by itself: it is killed and started", file=sys.stderr, flush=True)
        machine.kill_node()
        machine.start_node()
    site.wait_for_node(machine)


def kill_machine(site, turn):
    machine = site.machines[turn % len(site.machines)]
    killed = [it for replicas in site.replicas.values() for it in replicas if it.machine is machine]
    machine.kill_node()
    for replica in killed:
        replica.kill()
    site.do_answer_within(REPAIR_SECONDS)
    machine.start_node()
    site.wait_for_node(machine)
    for replica in killed:
        replica.start()


def measure(site, _turn):
    """Prints how much processor time the processes take, and how long answers take, while nothing is killed."""
    before, begun = site.processor_seconds(), time.monotonic()
    for thread in (*site.loads.values(), *site.watches.values()):
        thread.times.clear()
    time.sleep(STEADY_SECONDS)
    elapsed = time.monotonic() - begun
    for role, seconds in site.processor_seconds().items():
        shares = sorted(100 * (after - earlier) / elapsed for after, earlier in zip(seconds, before[role]))
        print(f"{role}: {len(shares)} processes, {statistics.mean(shares):.2f} % of a processor each, at most {shares[-1]:.2f} %")
    found = sorted(site.delays())
    print(f"{len(found)} messages, answered after {1000 * statistics.median(found):.0f} ms (median), {1000 * found[int(len(found) * 0.99)]:.0f} ms (99 %), "
          f"{1000 * found[-1]:.0f} ms (worst); load of this machine {os.getloadavg()[0]:.1f}", flush=True)


KINDS = {"steady": measure, "replica": kill_active, "both": kill_both, "node": kill_node, "partition": cut_off, "machine": kill_machine}


def try_once(site, kind, turn):
    """Does one trial, and returns the longest pause of each channel."""
    for watch in site.watches.values():
        watch.mark()
    KINDS[kind](site, turn)
    site.wait_for_replicas()
    pauses = [watch.pause for watch in site.watches.values()]
    time.sleep(site.asked.rest_seconds)
    return pauses


def try_kind(machines, asked, program, folder, kind):
    """Does all trials of a kind, and returns a row of the table and whether no answer was lost, doubled or different."""
    from .trial_site import Site

    site = Site(machines, asked, program, folder / kind, kind)
    pauses, begun, times = [], time.monotonic(), 0
    while times < asked.times and time.monotonic() - begun < 60 * asked.minutes:
        found = try_once(site, kind, times)
        times += 1
        print(f"{kind} {times}: longest pause {max(found):.2f} s", file=sys.stderr, flush=True)
        pauses += found
    seconds = time.monotonic() - begun
    compared = list(site.end().values())
    dropped = sum(watch.dropped() for watch in site.watches.values())
    twice = sum(load.failures for load in site.loads.values())
    lines, lost, doubled, different = (sum(getattr(it, what) for it in compared) for what in ("lines", "lost", "twice", "different"))
    row = (f"| {kind} | {times} | {len(pauses)} | {statistics.median(pauses):.2f} | {max(pauses):.2f} | {lines:,} | {lost} | {doubled} | {different} "
           f"| {dropped} | {twice} | {seconds:.0f} |")
    return row, not lost + doubled + different


def inside(asked):
    """Runs the trials in the namespaces that this process was started in."""
    from .trial_machines import Failed, start_cluster

    folder = pathlib.Path(asked.keep or tempfile.mkdtemp(prefix="replication_trials", dir="/var/tmp"))
    folder.mkdir(exist_ok=True)
    program, is_right = asked.program.split(), True
    try:
        machines = start_cluster(folder / "nodes")
        print("| trial | times | channels' pauses | median, s | worst, s | lines | lost | twice | different | dropped by readers | published again | seconds |",
              "|---|---|---|---|---|---|---|---|---|---|---|---|", sep="\n", flush=True)
        for kind in asked.kinds.split(","):
            row, is_right_kind = try_kind(machines, asked, program, folder, kind)
            print(row, flush=True)
            is_right = is_right and is_right_kind
    except Failed as fault:
        sys.exit(f"replication_trials: {fault}")
    finally:
        if not asked.keep:
            shutil.rmtree(folder, ignore_errors=True)
    sys.exit(0 if is_right else 1)


def install():
    """Installs the packages that are missing. Their services are not started: this command starts nodes of its own."""
    missing = [it for it in PACKAGES if subprocess.run(["dpkg-query", "--show", it], capture_output=True, check=False).returncode]
    if not missing:
        return
    environment = {**os.environ, "DEBIAN_FRONTEND": "noninteractive"}
    policy = pathlib.Path("/usr/sbin/policy-rc.d")
    is_ours = not policy.exists()
    if is_ours:
        policy.write_text("#!/bin/sh\nexit 101\n")
        policy.chmod(0o755)
    try:
        for words in (["update"], ["install", "--yes", "--no-install-recommends", *missing]):
            subprocess.run(["apt-get", "--quiet", *words], env=environment, stdout=sys.stderr, check=True)
    finally:
        if is_ours:
            policy.unlink()


def main():
    asked = read_arguments()
    if asked.inside:
        inside(asked)
    if os.geteuid():
        sys.exit("replication_trials: needs root")
    if engine.pika is None or not shutil.which("ip"):
        install()
    words = [sys.executable if engine.pika else "/usr/bin/python3", "-P", "-m", "tools.replication.trials", *sys.argv[1:], "--inside"]
    os.execvp("unshare", ["unshare", "--net", "--pid", "--fork", "--kill-child", "--mount-proc", *words])


if __name__ == "__main__":
    main()
