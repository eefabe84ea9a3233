"""Trials of the units in bad times: a full disk, a file in place of the pipe, processes that hang, too little memory, and rights of clients.

Each trial takes channels of its own, and removes them. package_trial runs them in its container.
"""

import re
import time

from tools import ROOT
from tools.generator.plant_text import channel_text, operator_text
from tools.manual.documents import section, without_subsections

from .channel_steps import LINES, PLANT, PROGRAM_OF, answers, begin_anew, run_answers, send, set_plant, shown, want

MAP = re.compile(r"^MAP (\d+) ")
STARTED = re.compile(r"^S line (\d+) frame (\d+)$")
RESTARTS = 7
WATCHDOG_SECONDS = 2
LONGEST_LINE = 4_096
FRAMES_IN_JOURNAL = 30_000
OPERATORS, SLICE = 32, 124
MEMORY_LIMIT = 536_870_912
LITTLE_MEMORY = 3_000_000
STOP_COPIER = "for p in /proc/[0-9]*; do case $(tr '\\0' ' ' <$p/cmdline) in 'sed --unbuffered '*) kill -STOP ${p#/proc/} ;; esac; done"
# Writes lines without an answer of a frame until the pipe is full, and waits for nothing.
FILL = f"""python3 -c "
import os
pipe = os.open('/run/plant_script/{{}}/in', os.O_WRONLY | os.O_NONBLOCK)
try:
    while True:
        os.write(pipe, b'X' * {LONGEST_LINE - 1} + bytes([10]))
except BlockingIOError:
    pass
"
"""


def drop_in(box, unit, text):
    box.write(f"/etc/systemd/system/{unit}.d/trial.conf", text)
    box.run("systemctl daemon-reload")


def remove_channel(box, channel):
    """Stops a channel, and removes all that is of it."""
    box.run(f"systemctl stop plant-bridge@{channel}.socket plant-bridge@{channel} plant-metrics@{channel} plant-ticker@{channel} plant@{channel}.socket plant@{channel}; "
            f"systemctl reset-failed 'plant*@{channel}*' 2>/dev/null; rm -rf /var/lib/plant_script/{channel}/* /etc/plant_script/{channel}.* "
            f"/etc/systemd/system/plant*@{channel}.*.d; systemctl daemon-reload")


def wait_for_restarts(box, channel, count, what):
    box.wait_until(f"systemctl show -P NRestarts plant@{channel}", lambda output: int(output) >= count, what)


def wait_for_map(box, channel, frames):
    """Waits for the MAP of so many frames, counted over all starts."""
    return box.wait_until(f"cat /var/lib/plant_script/{channel}/answers", lambda output: len(re.findall("(?m)^MAP .*\n", output)) >= frames, f"{channel} has not {frames} MAPs")


def first_map(box, channel):
    """Lets a channel tick, and waits for the MAP: then all its processes run."""
    send(box, channel, "T\n")
    wait_for_map(box, channel, 1)


def unnamed_gaps(text):
    """Returns the frames after which the MAPs of answers do not go on with the next frame, nor with the frame of a line S in between."""
    gaps, due = [], 0
    for line in text.splitlines():
        if started := STARTED.match(line):
            due = max(due, int(started[2]))
        elif found := MAP.match(line):
            if int(found[1]) != due:
                gaps.append(int(found[1]))
            due = int(found[1]) + 1
    return gaps


def full_disk(box):
    """Fills the disk of a channel that gets lines, until it was started many times. Once there is room it goes on: no frame is missing but
    those before the frame of a line S, and no line that it read later is lost."""
    set_plant(box, "full")
    box.run("mkdir -p /var/lib/plant_script/full; mount -t tmpfs -o size=512k none /var/lib/plant_script/full; systemctl start plant@full")
    send(box, "full", "T\n" * 10)
    wait_for_map(box, "full", 10)
    box.run("dd if=/dev/zero of=/var/lib/plant_script/full/other bs=4k status=none; true")
    send(box, "full", "T\n" * 500)
    # (lines wait in the pipe all the time)
    for count in range(1, RESTARTS + 1):
        wait_for_restarts(box, "full", count, f"a channel with a full disk is not started again after {count - 1} times")
        send(box, "full", "T\n" * 10)
    want("status=6" in box.run("journalctl --unit plant@full --output cat --no-pager"), "a full disk is not status 6")
    want("waiting for 2 s" in box.run("journalctl --unit plant@full --output cat --no-pager"), "the time before a start does not grow")
    box.run("rm /var/lib/plant_script/full/other")
    before = answers_of(box, "full").count("MAP ")
    send(box, "full", "T\n" * 10)
    output = wait_for_map(box, "full", before + 10)
    want(not unnamed_gaps(output), f"frames are missing before {unnamed_gaps(output)}, and no line S names them")
    want(shown(box, "plant@full", "ActiveState") == ["active"], "the channel is not active")
    remove_channel(box, "full")
    box.run("umount /var/lib/plant_script/full; rm -r /var/lib/plant_script/full")
    return f"a channel is back after a full disk and {RESTARTS} starts, and only frames before the one of its line S have no MAP"


def answers_of(box, channel):
    """Returns the answers of a channel, which may be on a disk that only the container sees."""
    return box.run(f"cat /var/lib/plant_script/{channel}/answers")


def many_failures(box):
    """Kills the program of a channel again and again. It is always started again, and its ticker as well."""
    set_plant(box, "weak")
    box.run("systemctl start plant@weak; systemctl enable --now plant-ticker@weak")
    for count in range(1, RESTARTS + 1):
        box.run(f"kill -KILL $({PROGRAM_OF.format('weak')})")
        wait_for_restarts(box, "weak", count, f"a channel that was killed is not started again after {count - 1} times")
        box.wait_until("systemctl is-active plant@weak plant-ticker@weak", lambda output: output == "active\n" * 2, f"channel and ticker are not both there after {count} times")
        box.wait_until(PROGRAM_OF.format("weak"), str.strip, "no program")
    wait_for_map(box, "weak", answers(box, "weak").count("MAP ") + 100)
    box.run("systemctl disable plant-ticker@weak")
    remove_channel(box, "weak")
    return f"a channel and its ticker are back after {RESTARTS} failures in a row"


def no_pipe(box):
    """Puts a file, links and a folder in place of the pipe of a channel that is down. The start makes the pipe all the same, and keeps one."""
    set_plant(box, "spot")
    place = "/run/plant_script/spot/in"
    box.run("echo kept > /root/target; mkfifo /root/pipe")
    for command in ("echo T >", "ln -s /root/target", "ln -s /root/pipe", "ln -s /nowhere", "mkdir"):
        box.run(f"mkdir -p /run/plant_script/spot; {command} {place}; systemctl start plant@spot")
        want(box.run(f"stat -c %F {place}") == "fifo\n", f"no pipe after: {command}")
        send(box, "spot", LINES)
        box.wait_until("cat /var/lib/plant_script/spot/answers", lambda output: output == "S line 1 frame 0\n" + run_answers(box, LINES), f"no answers after: {command}")
        box.run("systemctl stop plant@spot.socket plant@spot")
        begin_anew(box, "spot")
    want(box.run("cat /root/target; stat -c %F /root/pipe") == "kept\nfifo\n", "the target of a link is changed")
    box.run(f"mkfifo -m 620 {place}; ln {place} /run/plant_script/spot/other; systemctl start plant@spot")
    want(box.run(f"test {place} -ef /run/plant_script/spot/other; echo $?") == "0\n", "a pipe is replaced")
    remove_channel(box, "spot")
    box.run("rm -r /run/plant_script/spot /root/target /root/pipe /var/lib/plant_script/spot")
    return "a file, a link or a folder in place of the pipe is removed by a start, and a pipe is not"


def hanging(box):
    """Stops processes of a channel one after the other. Each time the channel is started again, and no line that it had not read is lost.
    A channel that gets no lines, or many, is left alone."""
    set_plant(box, "hang")
    drop_in(box, "plant@hang.service", f"[Service]\nWatchdogSec={WATCHDOG_SECONDS}\n")
    box.run("systemctl start plant@hang")
    first_map(box, "hang")
    frames = 1
    for number, (stop, is_lost) in enumerate(((f"kill -STOP $({PROGRAM_OF.format('hang')})", True), (STOP_COPIER, False),
                                              ("kill -STOP $(systemctl show -P MainPID plant@hang)", False), ("systemctl kill --signal=STOP plant@hang", False)), 1):
        box.run(stop)
        send(box, "hang", "T\n")
        wait_for_restarts(box, "hang", number, f"not noticed: {stop}")
        send(box, "hang", "T\n")
        frames += 1 + (not is_lost)
        wait_for_map(box, "hang", frames)
    want("watchdog" in box.run("journalctl --unit plant@hang --output cat --no-pager"), "the journal does not name the watchdog")
    box.run("systemctl enable --now plant-ticker@hang")
    time.sleep(2 * WATCHDOG_SECONDS)
    box.run("systemctl disable --now plant-ticker@hang")
    time.sleep(2 * WATCHDOG_SECONDS)
    want(shown(box, "plant@hang", "NRestarts") == ["4"], "a channel that works or waits is started again")
    box.run("rm -r /etc/systemd/system/plant@hang.service.d; systemctl daemon-reload; systemctl restart plant@hang")
    want(shown(box, "plant@hang", "WatchdogUSec") == ["30s"], "the unit has another time")
    remove_channel(box, "hang")
    return "a stopped program, copying process, script or channel is started again after its watchdog's time, and no other one"


def full_pipe(box):
    """Reloads a channel that does not read its lines: this fails within its time, and changes nothing."""
    set_plant(box, "slow")
    drop_in(box, "plant@slow.service", "[Service]\nWatchdogSec=0\nEnvironment=CHANGE_SECONDS=2\n")
    box.run("systemctl start plant@slow")
    first_map(box, "slow")
    box.run(STOP_COPIER)
    box.run(FILL.format("slow"))
    begun = time.monotonic()
    want(box.status_of("timeout 30 systemctl reload plant@slow")[0] not in (0, 124), "a reload with a full pipe succeeds or hangs")
    want(time.monotonic() - begun < 10, "a reload with a full pipe goes past its time")
    want("nothing is changed: the pipe /run/plant_script/slow/in took no line within 2 seconds" in box.run("journalctl --unit plant@slow --output cat --no-pager"), "no reason in the journal")
    box.run(STOP_COPIER.replace("STOP", "CONT"))
    send(box, "slow", "T\n")
    output = wait_for_map(box, "slow", 2)
    want(output.count("\nS line") == 0 and output.count("fault: line") > 100, f"the channel was changed, or did not read its lines:\n{output[:500]}")
    remove_channel(box, "slow")
    return "a reload with a full pipe fails within its time, and changes nothing"


def answers_in_journal(box):
    """Lets a channel answer into the journal, more lines than systemd takes of a unit by default."""
    set_plant(box, "logged")
    box.write("/etc/plant_script/logged.env", "ANSWERS=\n")
    box.run("systemctl start plant@logged")
    send(box, "logged", "T\n" * FRAMES_IN_JOURNAL)
    box.wait_until("journalctl --unit plant@logged --output cat --no-pager --lines 1", lambda output: output.startswith(f"MAP {FRAMES_IN_JOURNAL - 1} "), "not the last MAP in the journal")
    count = int(box.ask("journalctl --unit plant@logged --output cat --no-pager | grep -c '^MAP '"))
    want(count == FRAMES_IN_JOURNAL, f"the journal has {count} of {FRAMES_IN_JOURNAL} MAPs")
    remove_channel(box, "logged")
    return f"answers that go to the journal are all there ({FRAMES_IN_JOURNAL} MAPs at once)"


def large_plant():
    """Returns a plant file of 32 operators with 1,024 modems each."""
    text = channel_text(4096, 0)
    for place in range(OPERATORS):
        addresses = [f"02{place + 1:02X}{number:08X}" for number in range(1024)]
        text += operator_text(f"OP{place + 1}", addresses, (place * SLICE, SLICE), (1 + place * 128, (place + 1) * 128), 1)
    return text


def memory(box):
    """Starts a channel with too little memory: the program says so, and ends by itself. With the limit of the unit it goes on."""
    set_plant(box, "lean", large_plant())
    drop_in(box, "plant@lean.service", f"[Service]\nLimitDATA={LITTLE_MEMORY}\n")
    want(box.status_of("systemctl start plant@lean")[0], "a channel with too little memory starts")
    wait_for_restarts(box, "lean", 2, "a channel with too little memory is not started again")
    log = box.run("journalctl --unit plant@lean --output cat --no-pager")
    want("fault: memory" in log and "status=5" in log, f"the journal has no fault: memory:\n{log[-1000:]}")
    box.run("rm -r /etc/systemd/system/plant@lean.service.d; systemctl daemon-reload")
    box.wait_until("systemctl is-active plant@lean", lambda output: output == "active\n", "the channel is not back with more memory")
    first_map(box, "lean")
    limits = box.run(f"cat /proc/$({PROGRAM_OF.format('lean')})/limits")
    want(re.search(rf"(?m)^Max data size +{MEMORY_LIMIT} ", limits), f"the program has another limit:\n{limits}")
    remove_channel(box, "lean")
    return "a channel with too little memory says fault: memory, and goes on once it has more"


def may(box, user, script):
    return box.status_of(f"runuser -u {user} -- sh -c '{script}'")[0] == 0


def groups(box):
    """Gives channels groups of their own. A client of one can neither tick the other nor read its answers. Ticker, reload and metrics go on."""
    for channel in ("north", "south"):
        set_plant(box, channel)
        box.run(f"systemctl start plant@{channel}; /usr/libexec/plant_script/channel_group {channel}; systemctl restart plant@{channel}.socket plant@{channel}")
        box.run(f"useradd --groups _plant_{channel} of_{channel}")
    box.run("useradd --groups _plant_script of_all")
    for channel in ("north", "south"):
        for user, is_allowed in (("of_north", channel == "north"), ("of_south", channel == "south"), ("of_all", False)):
            for script in (f"echo T >> /run/plant_script/{channel}/in", f"cat /var/lib/plant_script/{channel}/answers"):
                want(may(box, user, script) == is_allowed, f"{user} may {'not ' * is_allowed}do: {script}")
        wait_for_map(box, channel, 1)
    box.run("systemctl reload plant@north; systemctl start plant-ticker@north")
    wait_for_map(box, "north", 100)
    for channel in ("north", "south"):
        remove_channel(box, channel)
    box.run("userdel of_north; userdel of_south; userdel of_all; groupdel _plant_north; groupdel _plant_south; rm -r /var/lib/plant_script/north /var/lib/plant_script/south")
    return "with a group for each channel, a client of one neither ticks another nor reads its answers"


def sockets(box):
    """Gives operator A a socket with a group of its own. A client of A gets grants there, and may open no other socket, also after a restart."""
    folder, client = "/run/plant_script/north", "/usr/share/doc/plant-script/examples/clients/plant_client.py"
    set_plant(box, "north")
    box.run("systemctl start plant@north; /usr/libexec/plant_script/operator_group north A; systemctl enable --now plant-bridge@north; systemctl start plant-ticker@north")
    box.run("useradd --groups _plant_north_a of_a")
    found = box.run(f"stat -c '%U:%G %a' {folder}/control.sock {folder}/operators/A.sock {folder}/operators/B.sock").splitlines()
    want(found == ["root:_plant_script 660", "_plant_script:_plant_north_a 660", "_plant_script:_plant_script 660"], f"the sockets have the rights {found}")
    connect = "python3 -c \"import socket; socket.socket(socket.AF_UNIX).connect(\\\"{}\\\")\""
    for path, is_allowed in (("control.sock", False), ("operators/B.sock", False), ("operators/A.sock", True)):
        want(may(box, "of_a", connect.format(f"{folder}/{path}")) == is_allowed, f"a client of A may {'not ' * is_allowed}open {path}")
    for modem, sid in (("020000000001", 257), ("020000000002", 258)):
        found = box.run(f"runuser -u of_a -- {client} {folder}/operators/A.sock {modem} 5")
        want(re.fullmatch(rf"flow {sid} has SID {sid}\nframe \d+: 5 minislots from minislot \d+ on\n", found), f"the client of A prints\n{found}")
        # (the sockets stay while the channel restarts, and the bridge restarts as well)
        box.run("systemctl restart plant@north plant-bridge@north")
    want("refused: modem" in box.status_of(f"runuser -u of_a -- {client} {folder}/operators/A.sock 020000000003 5")[1], "a client of A acts for a modem of B")
    remove_channel(box, "north")
    want(not box.ask(f"find {folder} -type s"), "sockets are left")
    box.run("userdel of_a; groupdel _plant_north_a; rm -r /var/lib/plant_script/north")
    return "a client of operator A gets grants by its socket, and opens no other one"


def metrics_folder(box):
    """Does what docs/MONITORING.md says of the folder of the metrics. A client cannot make links there, and the file is written."""
    folder = "/var/lib/prometheus/node-exporter"
    box.run(f"mkdir -p {folder}")
    set_plant(box, "east")
    box.run("set -e\n" + "\n".join(line for line in without_subsections(section(ROOT, "docs/MONITORING.md#metrics")) if line.startswith("    ")))
    box.wait_until(f"cat {folder}/melfjits_east.prom", lambda output: "melfjits_build_info" in output, "no metrics")
    box.run("useradd --groups _plant_script client")
    want(not may(box, "client", f"ln -s /etc/hostname {folder}/link"), "a client may make a link in the folder of the metrics")
    box.run("echo kept > /root/target; chmod 0666 /root/target; chmod 0711 /root")
    for _ in range(3):
        box.run(f"ln -sf /root/target {folder}/melfjits_east.new")
        time.sleep(1.2)
    want(box.run("cat /root/target") == "kept\n", "the metrics are written through a link")
    want(box.run(f"stat -c '%F %U %a' {folder}/melfjits_east.prom") == "regular file _plant_script 644\n", "the file of the metrics has other rights")
    box.run("systemctl disable --now plant-metrics@east; systemctl stop plant@east.socket plant@east; chmod 0700 /root; userdel client; rm /root/target")
    begin_anew(box, "east")
    return "a client makes no link in the folder of the metrics, and they are written through none"


TRIALS = (full_disk, many_failures, no_pipe, hanging, full_pipe, answers_in_journal, memory, groups, sockets, metrics_folder)
