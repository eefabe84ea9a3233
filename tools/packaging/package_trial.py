"""Tries the Debian package in a container under systemd: installs, starts, stops, upgrades, removes and purges it.

    tools/ci/package_trial PACKAGE.deb [--base FOLDER] [--keep] [--only TRIAL ..]

PACKAGE.deb is what tools/run build_package built; the tarball must be next to it. The newer package of the upgrade is the same one with a
later version. FOLDER is a Debian system that debootstrap filled before with the packages that container.py names; it is copied. Without
--base, debootstrap fetches one. --keep keeps the copy, and prints where it is. With --only, only these trials of unit_trials.py run, in a
container in which the package is installed.

Needs root, the network (without --base), and Debian's packages debootstrap, systemd-container, dpkg-dev and lintian. It is no part of
.ci/run. Prints a line for each trial; exits with 1 if one fails. Takes three minutes with --base.
"""

import argparse
import hashlib
import os
import pathlib
import re
import shutil
import subprocess
import sys
import tempfile
import time

from tools import ROOT
from tools.manual.documents import section
from tools.packaging import unit_trials
from tools.packaging.channel_steps import FOLDER, LINES, PLANT, PROGRAM_OF, START, Lines, answers, begin_anew, run_answers, send, set_plant, shown, wait_for_answers, want
from tools.packaging.container import Container, Failed, fill, run_here

COMMANDS = {"debootstrap": "debootstrap", "systemd-nspawn": "systemd-container", "dpkg-deb": "dpkg-dev", "lintian": "lintian"}
MOST_EXPOSURE = 3.0
WRITE_AT_ONCE = 4_096
PAGES = ("plant_script", "plant_script-serve", "plant.toml", "describe_state", "plant_view", "dsx")
PACKAGE = "plant-script"
NEW_MODEM = "02000000FFFF"
REQUEST = f"M {NEW_MODEM} 0F0001180A010200010601060F0102\n"


EAST = Lines("east")


def forget_failures(box):
    """Resets how often units were started again."""
    box.ask("systemctl reset-failed 'plant@*'")


def lintian(package):
    found = subprocess.run(["lintian", "--allow-root", "--display-info", package], capture_output=True, text=True, check=False).stdout
    found = "\n".join(line for line in found.splitlines() if not line.startswith("N:"))
    want(not found, f"lintian finds:\n{found}")
    return "lintian finds nothing"


def install(box, package):
    box.copy(package, "/root/package.deb")
    box.run("dpkg --install /root/package.deb")
    build = dict(line.split(": ", 1) for line in box.run(f"cat /usr/share/doc/{PACKAGE}/build.txt").splitlines())
    want(box.run(f"dpkg-query -W -f '${{Version}}' {PACKAGE}") == build["version"], "build.txt has another version")
    want(hashlib.sha256((box.folder / "usr/bin/plant_script").read_bytes()).hexdigest() in build["program"], "build.txt is of another program")
    want("Usage: plant_script [OPTIONS] <COMMAND>" in box.run("plant_script --help"), "the program has no help")
    for page in PAGES:
        want("Melfjits" in box.run(f"man {page}"), f"the page {page} has no text")
    want(box.run("stat -c '%U %a' /etc/plant_script /var/lib/plant_script /run/plant_script").splitlines() == ["root 755"] * 3, "the folders are not root's")
    want(not box.ask("systemctl list-units --no-legend --all 'plant@*'"), "the installation started a channel")
    return f"installed {build['version']} ({build['program'].split(',')[0]})"


def complete(box):
    script = ". /usr/share/bash-completion/bash_completion; _completion_loader plant_script; COMP_WORDS=(plant_script s); COMP_CWORD=1;"
    found = box.run(f"bash -c '{script} _plant_script; echo ${{COMPREPLY[*]}}'")
    want(found == "serve snapshot\n", f"bash completes s to {found}")
    return "bash completes commands"


def verify_units(box):
    found = box.ask("systemd-analyze verify plant@east.service plant@east.socket plant-ticker@east.service plant-metrics@east.service plant-renumber@east.timer plant-renumber@east.service plant-bridge@east.service plant-bridge@east.socket")
    want(not found, f"systemd-analyze verify finds:\n{found}")
    exposures = []
    for unit in ("plant@", "plant-ticker@", "plant-metrics@", "plant-renumber@", "plant-bridge@"):
        last = box.run(f"systemd-analyze security --offline=true --no-pager /usr/lib/systemd/system/{unit}.service").splitlines()[-1]
        exposures.append(float(re.search(r"(\d+\.\d+)", last)[1]))
    want(max(exposures) < MOST_EXPOSURE, f"systemd-analyze security says {exposures}")
    return f"systemd-analyze verify finds nothing in the units, and their exposures are {exposures}"


def as_the_page_says(box):
    """Runs the commands that docs/OPERATING.md gives for the first start, and stops the channel."""
    box.run("set -e\n" + "\n".join(line for line in section(ROOT, "docs/OPERATING.md#first-start") if line.startswith("    ")))
    output = box.wait_until("cat /var/lib/plant_script/east/answers", lambda output: "MAP " in output, "no MAP after the commands of the page")
    want(re.fullmatch("S line 1 frame 0\nR 020000000001 .*\nF A 0 .*\nF B 0 .*\nMAP 0 .*\n", output), f"the commands of the page give\n{output}")
    box.run("systemctl disable --now plant@east.socket plant@east")
    begin_anew(box, "east")
    return "the commands of docs/OPERATING.md start a channel"


def first_start(box):
    set_plant(box, "east")
    box.run("systemctl enable --now plant@east")
    want(shown(box, "plant@east", "ActiveState", "StatusText") == ["active", "serving /etc/plant_script/east.toml"], "the channel is not ready")
    want(box.run("stat -c '%F %U:%G %a' /run/plant_script/east/in") == "fifo root:_plant_script 620\n", "the pipe has other rights")
    want(box.run("stat -c '%U:%G %a' /var/lib/plant_script/east/answers") == "_plant_script:_plant_script 640\n", "the answers have other rights")
    want(box.run(f"stat -c '%U:%G %a' {FOLDER.format('east')}") == "_plant_script:_plant_script 700\n", "the folder has other rights")
    wait_for_answers(box, "east", "S line 1 frame 0\n")
    rows = LINES.splitlines(keepends=True)
    for at in range(0, len(rows), 7):
        EAST.send(box, "".join(rows[at:at + 7]))
    EAST.wait(box)
    return f"{len(rows)} lines of {len(rows) // 7 + 1} clients are answered as by serve"


def invalid_line(box):
    EAST.send(box, "X\n")
    EAST.wait(box)
    want(answers(box, "east").endswith(f"\nfault: line {len(LINES.splitlines()) + 1}\n"), "an invalid line has another number")
    return "an invalid line is answered by its number"


def rights(box):
    box.run("useradd other; useradd --groups _plant_script member")
    for user, is_allowed in (("other", False), ("member", True)):
        for script in ("echo >> /run/plant_script/east/in", "cat /var/lib/plant_script/east/answers"):
            status, _ = box.status_of(f"runuser -u {user} -- sh -c '{script}'")
            want((status == 0) == is_allowed, f"{user}: {script} ended with status {status}")
        want(box.status_of(f"runuser -u {user} -- ls {FOLDER.format('east')}")[0], f"{user} may look into the folder")
    EAST.text += "\n"
    want(box.status_of("runuser -u member -- cat /run/plant_script/east/in")[0], "a member may read the pipe")
    return "members of the group write lines and read answers, others do not"


def second_channel(box):
    set_plant(box, "west")
    before = answers(box, "east")
    box.run("systemctl start plant@west")
    send(box, "west", LINES)
    wait_for_answers(box, "west", "S line 1 frame 0\n" + run_answers(box, LINES))
    want(answers(box, "east") == before, "lines of one channel have answers in another")
    box.run("systemctl stop plant@west.socket plant@west")
    want(not (box.folder / "run/plant_script/west/in").exists() and box.status_of("test -e /run/plant_script/west/in")[0], "the pipe is still there")
    return "a second channel runs next to the first"


def realtime(box):
    """Starts a channel with the drop-in for a realtime class. Its program has the class, and answers as before."""
    folder = "/etc/systemd/system/plant@west.service.d"
    begin_anew(box, "west")
    box.run(f"mkdir {folder} && cp /usr/share/doc/plant-script/examples/realtime.conf {folder}/ && systemctl daemon-reload && systemctl start plant@west")
    send(box, "west", LINES)
    wait_for_answers(box, "west", "S line 1 frame 0\n" + run_answers(box, LINES))
    policy = box.run(f"chrt --pid $({PROGRAM_OF.format('west')})")
    want("SCHED_RR" in policy and "priority: 10" in policy, f"the program has another scheduling class: {policy}")
    want(shown(box, "plant@west", "MemorySwapMax") == ["0"], "the channel may be swapped")
    box.run(f"systemctl stop plant@west.socket plant@west; rm -r {folder}; systemctl daemon-reload")
    return "a channel runs in a realtime class"


def killed(box):
    """Kills processes of the channel: each time it goes on with its flows, its frame and the number of the next line."""
    kinds = (f"kill -KILL $({PROGRAM_OF.format('east')})", "systemctl kill --signal=KILL plant@east", "kill -KILL $(systemctl show -P MainPID plant@east)",
             "for p in /proc/[0-9]*; do case $(tr '\\0' ' ' <$p/cmdline) in sed*) kill -KILL ${p#/proc/} ;; esac; done")
    for kind in kinds:
        forget_failures(box)
        box.run(kind)
        box.wait_until("systemctl show -P NRestarts plant@east", lambda output: output == "1\n", f"no restart after: {kind}")
        box.wait_until("systemctl is-active plant@east", lambda output: output == "active\n", "not active")
        EAST.started(box)
        EAST.send(box, LINES)
        EAST.wait(box)
    return "the channel goes on with its next line if its program, its script, the process that copies or all of them are killed"


def goes_on(box):
    """Restarts the channel: it goes on with its state."""
    box.run("systemctl restart plant@east")
    EAST.started(box)
    EAST.send(box, LINES)
    EAST.wait(box)
    want(box.status_of("ls /var/lib/plant_script/east/state*")[0], "a stop keeps a state next to the folder")
    return "a restart keeps the state of the channel"


def reloaded(box, channel="east", line=r"S line \d+ frame \d+"):
    """Lists a modem while the channel runs: its lines are answered then, and the flows of the others go on. A change that is refused
    leaves the channel as it is."""
    before, plant = answers(box, channel), (box.folder / f"etc/plant_script/{channel}.toml").read_text()
    send(box, channel, REQUEST)
    box.wait_until(f"tail -n 1 /var/lib/plant_script/{channel}/answers", lambda output: output.startswith("fault: line "), "an unknown modem has an answer")
    set_plant(box, channel, re.sub(r"(modems = \[)", rf'\1"{NEW_MODEM}", ', plant, count=1))
    box.run(f"systemctl reload plant@{channel}")
    send(box, channel, REQUEST)
    output = box.wait_until(f"cat /var/lib/plant_script/{channel}/answers", lambda output: f"R {NEW_MODEM} " in output, "a new modem has no answer")
    want(re.search(rf"\n{line}\n", output.removeprefix(before)), "the answers have no change")
    process = shown(box, f"plant@{channel}", "MainPID", "NRestarts")
    set_plant(box, channel, plant)
    want(box.status_of(f"systemctl reload plant@{channel}")[0], "a modem with a flow is removed")
    want(shown(box, f"plant@{channel}", "ActiveState", "MainPID", "NRestarts") == ["active", *process], "a refused change ended the channel")
    send(box, channel, "P\n" + REQUEST)
    box.wait_until(f"tail -n 1 /var/lib/plant_script/{channel}/answers", lambda output: output.startswith(f"R {NEW_MODEM} "), "a refused change changed the plant")
    return "a reload adds a modem, and one that is refused leaves the channel as it is"


def changed_while_down(box):
    """Changes the plant file of a channel that is stopped. The start takes the change. A change that is refused keeps the channel down."""
    plant = (box.folder / "etc/plant_script/east.toml").read_text()
    box.run("systemctl stop plant@east")
    want(box.status_of("systemctl start plant@east")[0], "a modem with a flow is removed by a start")
    want(shown(box, "plant@east", "ActiveState", "ExecMainStatus", "NRestarts") == ["failed", "3", "0"], "a refused change is tried again")
    log = box.run("journalctl --unit plant@east --output cat --no-pager")
    command = re.findall(r"its plant file is printed by: (.*)", log)[-1]
    box.run(f"{command} > /etc/plant_script/east.toml; systemctl reset-failed plant@east.service plant@east.socket; systemctl start plant@east")
    send(box, "east", REQUEST)
    box.wait_until("tail -n 1 /var/lib/plant_script/east/answers", lambda output: output.startswith(f"R {NEW_MODEM} "), "the channel forgot its flow")
    want((box.folder / "etc/plant_script/east.toml").read_text() != plant, "the plant file of the folder is the old one")
    box.run("systemctl stop plant@east")
    more = re.sub(r"(modems = \[)", r'\1"02000000EEEE", ', (box.folder / "etc/plant_script/east.toml").read_text(), count=1)
    set_plant(box, "east", more)
    box.run("systemctl start plant@east")
    send(box, "east", REQUEST.replace(NEW_MODEM, "02000000EEEE"))
    box.wait_until("tail -n 1 /var/lib/plant_script/east/answers", lambda output: output.startswith("R 02000000EEEE "), "a start does not take a change")
    return "a start takes a changed plant file; one that is refused keeps the channel down, and the journal says how to go on"


def without_folder(box):
    """Serves a channel with an empty FOLDER: a stop keeps the state, a reload writes the line P, and a channel that is killed begins anew."""
    set_plant(box, "plain")
    box.write("/etc/plant_script/plain.env", "FOLDER=\n")
    box.run("systemctl start plant@plain")
    send(box, "plain", LINES)
    wait_for_answers(box, "plain", run_answers(box, LINES))
    before = answers(box, "plain")
    box.run("systemctl restart plant@plain")
    state = answers(box, "plain").removeprefix(before)
    want(state.startswith("melfjits-snapshot ") and "\nend " in state, f"a stop is answered by\n{state}")
    send(box, "plain", LINES)
    wait_for_answers(box, "plain", before + state + box.ask("plant_script resume", state + "---\n" + LINES))
    reloaded(box, "plain", r"P frame \d+")
    want("Operator A\n" in box.run("describe_state --channel plain"), "describe_state has no operator A")
    box.run("kill -KILL $(systemctl show -P MainPID plant@plain)")
    box.wait_until("systemctl show -P NRestarts plant@plain", lambda output: output == "1\n", "no restart")
    before = answers(box, "plain")
    send(box, "plain", "T\n")
    wait_for_answers(box, "plain", before + run_answers(box, "T\n"))
    box.run("systemctl stop plant@plain.socket plant@plain; rm -r /var/lib/plant_script/plain /etc/plant_script/plain.toml /etc/plant_script/plain.env")
    return "without a folder a stop keeps the state, a reload is a line P, and a killed channel begins anew"


def watched(box):
    """Lets the unit of the metrics run, and asks the channel for its state in words. The channel goes on if the unit is killed."""
    folder, file = "/var/lib/prometheus/node-exporter", "/var/lib/prometheus/node-exporter/melfjits_east.prom"
    box.run(f"install --directory --group=_plant_metrics --mode=0775 {folder}")
    box.write("/etc/plant_script/east.env", "SNAPSHOT_SECONDS=1\n")
    box.run("systemctl enable --now plant-metrics@east")
    box.wait_until(f"cat {file}", lambda output: 'melfjits_flows_limit{channel="east",operator="A"}' in output, "no metrics of the state")
    send(box, "east", "T\nX\n")
    output = box.wait_until(f"cat {file}", lambda output: 'fault="line"} 1.0' in output, "an invalid line is not counted")
    want('melfjits_answers_total{channel="east",type="map"} 1.0' in output and 'program="' in output, f"the metrics are\n{output}")
    want(box.run(f"stat -c '%U %a' {file}") == "_plant_script 644\n", "the file has other rights")
    want(re.search(r'melfjits_journal_bytes\{channel="east"\} \d', output), "no metric of the journal")
    box.wait_until(f"cat {file}", lambda output: 'unit_state{channel="east",state="active",unit="plant@east.service"} 1.0' in output, "no metric of the unit")
    want(shown(box, "plant-renumber@east.timer", "ActiveState") == ["active"], "nobody looks at the frame numbers")
    want("K\n" not in box.run(f"cat {FOLDER.format('east')}/journal"), "the channel is asked by the line K")
    want("Operator A\n" in box.run("describe_state --channel east"), "describe_state has no operator A")
    want(box.status_of("runuser -u member -- describe_state --channel east")[0] == 6, "a member reads the folder")
    box.run("kill -KILL $(systemctl show -P MainPID plant-metrics@east)")
    send(box, "east", "T\n")
    box.wait_until("tail -n 1 /var/lib/plant_script/east/answers", lambda output: output.startswith("MAP "), "the channel waits for its metrics")
    box.run("systemctl disable --now plant-metrics@east; rm /etc/plant_script/east.env")
    box.run(f"test -e {file} && rm {file}")
    return "the metrics of a channel are written, its state is described, and it does not wait for that"


def reasons(box):
    """Reloads an invalid plant file and one that does not fit: the journal has the reasons as warnings."""
    plant = (box.folder / "etc/plant_script/east.toml").read_text()
    set_plant(box, "east", plant.replace("frame_us = 2000", "frame_us = 4000", 1))
    want(box.status_of("systemctl reload plant@east")[0], "another frame_us is accepted")
    set_plant(box, "east", plant)
    box.wait_until("journalctl --unit plant@east --priority warning --output cat --no-pager", lambda output: "the plant file does not fit the plant" in output, "no reason in the journal")
    return "the reasons of a refused change are warnings in the journal"


def stopped_at_work(box):
    """Stops the channel while it has much to do: what it got is answered whole."""
    lines = "T\n" * 200_000
    box.run("systemctl stop plant@east")
    begin_anew(box, "east")
    set_plant(box, "east")
    box.run("systemctl start plant@east")
    sender = box.start("cat > /run/plant_script/east/in; echo sent")
    sender.stdin.write(lines)
    box.run("systemctl stop plant@east.socket plant@east")
    sender.communicate()
    want(shown(box, "plant@east", "ActiveState", "Result", "ExecMainStatus") == ["inactive", "success", "0"], "the channel did not end well")
    done = answers(box, "east").removeprefix("S line 1 frame 0\n")
    frames = done.count("MAP ")
    want(0 < frames < 200_000 and done == run_answers(box, "T\n" * frames), "the answers are not those of whole lines")
    return f"a stop in the middle of the work leaves whole answers ({frames} of 200,000 frames)"


def invalid_plant(box):
    set_plant(box, "bad", PLANT.replace('policy = "strict"', 'policy = "none"', 1))
    want(box.status_of("systemctl start plant@bad")[0], "a channel with an invalid plant file starts")
    want(shown(box, "plant@bad", "ActiveState", "ExecMainStatus", "NRestarts") == ["failed", "3", "0"], "an invalid plant file is tried again")
    log = box.run("journalctl --unit plant@bad --output cat --no-pager")
    want("fault: plant " in log and "/etc/plant_script/bad.toml is refused" in log, f"the journal has no reason:\n{log}")
    send(box, "bad", "T\n")
    box.wait_until("systemctl is-failed plant@bad.socket", lambda output: output == "failed\n", "the pipe stays, and nothing reads it")
    set_plant(box, "bad")
    box.run("systemctl reset-failed plant@bad.service plant@bad.socket; systemctl start plant@bad")
    send(box, "bad", LINES)
    wait_for_answers(box, "bad", "S line 1 frame 0\n" + run_answers(box, LINES))
    box.run("systemctl stop plant@bad.socket plant@bad")
    want(box.status_of("systemctl start plant@none")[0], "a channel without a plant file starts")
    return "an invalid plant file is reported, and not tried again; once it is mended, the channel starts"


def ticked(box):
    """Lets the ticker run, also through a restart of the channel."""
    box.run("systemctl enable --now plant-ticker@east")
    for _ in range(2):
        before, started = answers(box, "east").count("MAP "), time.monotonic()
        time.sleep(2)
        frames = (time.monotonic() - started) / 0.002
        # (a busy machine answers late)
        want(frames / 2 < answers(box, "east").count("MAP ") - before < frames * 2, "not a MAP every 2 ms")
        box.run("systemctl restart plant@east")
        box.wait_until("systemctl is-active plant-ticker@east", lambda output: output == "active\n", "the ticker does not follow the channel")
    box.run("kill -KILL $(systemctl show -P MainPID plant@east)")
    box.wait_until("systemctl show -P NRestarts plant@east", lambda output: output == "1\n", "no restart")
    box.wait_until("systemctl is-active plant-ticker@east", lambda output: output == "active\n", "the ticker does not follow the channel")
    box.run("systemctl disable --now plant-ticker@east")
    want(shown(box, "plant@east", "ActiveState") == ["active"], "the channel ends with its ticker")
    return "the ticker gives a MAP every 2 ms, and follows the channel"


def recorded(box):
    box.write("/etc/systemd/system/plant@east.service.d/record.conf", "[Service]\nEnvironment=RECORDS=/var/lib/plant_script/east\n")
    begin_anew(box, "east")
    EAST.text = ""
    box.run("systemctl daemon-reload; systemctl start plant@east")
    EAST.send(box, LINES)
    EAST.wait(box)
    box.run("systemctl stop plant@east")
    want(box.run("cat /var/lib/plant_script/east/*.txt | plant_script run") == run_answers(box, LINES), "the record does not give the answers")
    return "run gives the same answers from a record"


def rebooted(box):
    """Powers the machine off, and then takes its power away."""
    for end in (box.stop, box.kill):
        box.run("systemctl start plant@east")
        EAST.send(box, LINES)
        EAST.wait(box)
        end()
        box.boot()
        box.wait_until("systemctl is-active plant@east", lambda output: output == "active\n", "the channel is not there after a reboot")
        EAST.started(box)
    EAST.send(box, LINES)
    EAST.wait(box)
    return "an enabled channel is there after a reboot and after a machine that was killed, and goes on"


def newer(package, work):
    """Returns the same package with a later version."""
    run_here("dpkg-deb", "--raw-extract", package, work / "newer")
    control = work / "newer/DEBIAN/control"
    control.write_text(re.sub(r"(?m)^(Version: .*)$", r"\1.1", control.read_text()))
    run_here("dpkg-deb", "--root-owner-group", "--build", work / "newer", work / "newer.deb")
    return work / "newer.deb"


def upgraded(box, package, work):
    process = shown(box, "plant@east", "MainPID", "NRestarts")
    box.copy(newer(package, work), "/root/newer.deb")
    box.run("dpkg --install /root/newer.deb")
    want(box.run(f"dpkg-query -W -f '${{Version}}' {PACKAGE}").endswith(".1"), "the package has not the later version")
    want(shown(box, "plant@east", "MainPID", "NRestarts") == process, "the upgrade restarted the channel")
    is_old = f"ls -l /proc/$({PROGRAM_OF.format('east')})/exe"
    want("(deleted)" in box.run(is_old), "the program of the channel is not the old one")
    EAST.send(box, "T A\n")
    EAST.wait(box)
    box.run("systemctl reload plant@east")
    want("(deleted)" not in box.run(is_old), "a reload does not take the new program")
    box.run("systemctl restart plant@east")
    want(shown(box, "plant@east", "MainPID") != process[:1], "no restart")
    EAST.started(box)
    EAST.send(box, "T B\nT\n")
    EAST.wait(box)
    return "an upgrade leaves the channel running with its folder; a reload or a restart takes the new program and goes on"


def purged(box):
    box.run("systemctl enable plant-ticker@east")
    box.run(f"dpkg --remove {PACKAGE}")
    left = box.run("systemctl list-units --no-legend --state=active,activating,deactivating 'plant@*'")
    want(not left, f"left after the removal:\n{left}")
    want(answers(box, "east") and (box.folder / FOLDER.format("east")[1:] / "journal").exists(), "answers or folder are gone after the removal")
    box.run(f"dpkg --purge {PACKAGE}")
    left = box.run("find / -xdev '(' -path '*plant[-_]script*' -o -path '*/plant@*' -o -path '*/plant-ticker@*' -o -path '*/plant-metrics@*' -o -path '*/plant-renumber@*' -o -name 'melfjits_*' -o -name 'describe_state*' -o -name '__pycache__' -path '*plant*' ')' ! -path '/proc/*' ! -path '/var/log/*' ! -path '/var/cache/man/*'").split()
    owners = ["/etc/plant_script", "/etc/plant_script/bad.toml", "/etc/plant_script/east.toml", "/etc/plant_script/west.toml",
              "/etc/systemd/system/plant@east.service.d", "/etc/systemd/system/plant@east.service.d/record.conf"]
    want(sorted(left) == owners, f"left after the purge: {left}")
    return "a purge leaves only the owner's plant files and unit changes"


def from_tarball(box, package):
    tarball = next(package.parent.glob(package.name.removesuffix("_amd64.deb").replace("_", "-") + "-amd64.tar.gz"))
    box.copy(tarball, "/root/package.tar.gz")
    box.run("tar --extract --strip-components=1 --directory=/ --file=/root/package.tar.gz; systemd-sysusers; systemd-tmpfiles --create; systemctl daemon-reload")
    box.run("rm -r /etc/systemd/system/plant@east.service.d; systemctl daemon-reload; systemctl start plant@east")
    send(box, "east", LINES)
    wait_for_answers(box, "east", "S line 1 frame 0\n" + run_answers(box, LINES))
    return "the files of the tarball serve a channel"


def trials(box, package, work):
    """Yields a line for each trial."""
    yield lintian(package)
    yield install(box, package)
    for trial in (complete, verify_units, as_the_page_says, first_start, invalid_line, rights, second_channel, realtime, killed, goes_on, reloaded, reasons, changed_while_down, without_folder, watched,
                  ticked, stopped_at_work, invalid_plant, *unit_trials.TRIALS, recorded, rebooted):
        forget_failures(box)
        yield trial(box)
    yield upgraded(box, package, work)
    yield purged(box)
    yield from_tarball(box, package)


def some_trials(box, package, names):
    """Yields a line for each trial that is asked for, in a container in which nothing else was tried."""
    box.copy(package, "/root/package.deb")
    box.run("dpkg --install /root/package.deb")
    for trial in unit_trials.TRIALS:
        if trial.__name__ in names:
            yield trial(box)


def read_arguments():
    ask = argparse.ArgumentParser("package_trial", description=__doc__, formatter_class=argparse.RawDescriptionHelpFormatter)
    ask.add_argument("package", metavar="PACKAGE.deb", type=pathlib.Path, help="the package")
    ask.add_argument("--base", metavar="FOLDER", help="copy this Debian system in place of a new one")
    ask.add_argument("--keep", action="store_true", help="keep the copy, and print where it is")
    ask.add_argument("--only", nargs="+", metavar="TRIAL", choices=[trial.__name__ for trial in unit_trials.TRIALS], help="run only these trials")
    return ask.parse_args()


def main():
    asked = read_arguments()
    missing = sorted(package for command, package in COMMANDS.items() if not shutil.which(command))
    if missing:
        sys.exit(f"package_trial: install Debian's packages {', '.join(missing)}")
    if os.geteuid():
        sys.exit("package_trial: needs root")
    # (not /tmp, which may be in memory)
    work = pathlib.Path(tempfile.mkdtemp(prefix="package_trial", dir="/var/tmp"))
    started = time.monotonic()
    try:
        (work / "root").mkdir()
        fill(work / "root", asked.base)
        with Container(work / "root") as box:
            for line in some_trials(box, asked.package, asked.only) if asked.only else trials(box, asked.package, work):
                print(line, flush=True)
    except Failed as fault:
        sys.exit(f"package_trial: failed: {fault}")
    finally:
        if asked.keep:
            print(work)
        else:
            shutil.rmtree(work, ignore_errors=True)
    print(f"the package passed all trials in {time.monotonic() - started:.0f} seconds")


if __name__ == "__main__":
    main()
