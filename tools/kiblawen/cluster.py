"""Runs Slurm on this machine, makes tables as jobs of it, and compares them with those that are made without it.

    ./x cluster                          the programs and shared objects below /usr/bin, on two nodes
    ./x cluster --nodes N --tasks N DIR  other numbers of nodes and of tasks, and another folder
    ./x cluster --tool PROGRAM ..        with another program than the one that was built

Debian's packages of Slurm and munge are downloaded by apt-get and unpacked in a temporary folder. That also has the configuration, the key,
the state and the logs. Nothing is installed. The nodes are slurmd processes with one slot each, and listen on 127.0.0.1. All processes of
the cluster end with this command, also if it fails or is interrupted.

- An array job writes the tables of DIR to a store, by kiblawen-add. One task is killed on the way and submitted again. The store then has
  the same files and bytes as one that kiblawen-add makes alone.
- An array job links objects of libc.a in parts. Jobs that depend on it merge the parts. The section has the bytes of one link of them all.

The last line is `N passed, M failed, 0 skipped`. The status is 1 if something failed or differs.
"""

import contextlib
import filecmp
import glob
import os
import pwd
import shutil
import signal
import socket
import subprocess
import tempfile
import time

from kiblawen import add, common, elf, program, stranger, tables

PACKAGES = ("slurmctld", "slurmd", "slurm-client", "slurm-wlm-basic-plugins", "munge", "libmunge2")
NEEDED = ("apt-get", "dpkg-deb", "ar", "cc", "setpriv")
HERE = "127.0.0.1"
# Without control groups, task plugins and accounting, Slurm needs no service of the machine, and no rights of root.
CONFIGURATION = """
ClusterName=kiblawen
SlurmctldHost={host}({here})
SlurmctldPort={port}
SlurmUser={user}
SlurmdUser={user}
CommunicationParameters=NoCtldInAddrAny,NoInAddrAny
AuthType=auth/munge
AuthInfo=socket={room}/munge.socket
CredType=cred/munge
PluginDir={libraries}/slurm-wlm
StateSaveLocation={room}/state
SlurmdSpoolDir={room}/%n
SlurmctldPidFile={room}/slurmctld.pid
SlurmdPidFile={room}/%n.pid
SlurmctldLogFile={room}/slurmctld.log
SlurmdLogFile={room}/%n.log
ProctrackType=proctrack/linuxproc
TaskPlugin=task/none
JobAcctGatherType=jobacct_gather/none
AccountingStorageType=accounting_storage/none
SelectType=select/cons_tres
SelectTypeParameters=CR_CPU
MailProg=/bin/true
MinJobAge=3600
PartitionName=all Nodes=ALL Default=YES State=UP
"""
NODE = "NodeName={name} NodeHostname={host} NodeAddr={here} Port={port} CPUs=1\n"
# The jobs. Slurm counts the tasks of a submission, so those that are submitted again need the first count: it is an argument.
SCRIPTS = {
    "share": """#!/bin/sh
# share TASKS: writes the tables of this task's share of the files to the store. What the store has is passed over.
awk -v task="$SLURM_ARRAY_TASK_ID" -v tasks="$1" 'NR % tasks == task' files | xargs -r -d '\\n' kiblawen-add -j 1 --lenient --into-store store
""",
    "part": """#!/bin/sh
# part PARTS: links this task's share of the objects.
objects=$(awk -v task="$SLURM_ARRAY_TASK_ID" -v tasks="$1" 'NR % tasks == task' objects)
sf_tool link "part$SLURM_ARRAY_TASK_ID@0x10000000" $objects
""",
    "pair": """#!/bin/sh
# pair: merges two of the parts.
first=$((2 * SLURM_ARRAY_TASK_ID))
sf_tool merge "pair$SLURM_ARRAY_TASK_ID@0x10000000" "part$first@0x10000000" "part$((first + 1))@0x10000000"
""",
    "all": """#!/bin/sh
# all: merges the pairs.
sf_tool merge merged@0x10000000 pair0@0x10000000 pair1@0x10000000
""",
}
PARTS = 4
# One link of all objects has to be possible: it takes at most 512.
OBJECTS = 480
ENDED = {"COMPLETED", "FAILED", "CANCELLED", "TIMEOUT", "NODE_FAIL", "OUT_OF_MEMORY", "BOOT_FAIL", "DEADLINE", "PREEMPTED"}
# How many tables a task has made when it is killed.
BEGUN = 3
# How many seconds pass between two looks.
PAUSE = 0.1
# How many seconds the daemons may take to begin, or to end.
DAEMONS = 60
# How many seconds a job may take.
JOB = 900


class Fault(Exception):
    """Why the cluster can't go on."""


def until(test, seconds, what):
    """Waits until a test returns something, and returns that."""
    last = time.monotonic() + seconds
    while True:
        found = test()
        if found:
            return found
        if time.monotonic() > last:
            raise Fault(f"{what}: not within {seconds} seconds")
        time.sleep(PAUSE)


def free_ports(count):
    """Ports of this machine that nothing listens on."""
    with contextlib.ExitStack() as stack:
        sockets = [stack.enter_context(socket.socket()) for _ in range(count)]
        for it in sockets:
            it.bind((HERE, 0))
        return [it.getsockname()[1] for it in sockets]


class Cluster:
    """Slurm in a folder of its own."""

    def __init__(self, room, nodes):
        self.room, self.root, self.work = room, f"{room}/root", f"{room}/work"
        self.names = [f"n{number}" for number in range(1, nodes + 1)]
        self.libraries = f"{self.root}/usr/lib/{self.triplet()}"
        self.daemons = []
        found = {"PATH": f"{room}/bin:{self.root}/usr/bin:{os.environ['PATH']}", "SLURM_CONF": f"{room}/slurm.conf"}
        self.environment = {**os.environ, **found, "LD_LIBRARY_PATH": f"{self.libraries}:{self.libraries}/slurm-wlm"}
        for folder in ("archives/partial", "root", "work", "state", "bin", *self.names):
            os.makedirs(os.path.join(room, folder))

    @staticmethod
    def triplet():
        return (common.output("cc", "-print-multiarch") or "").strip() or "x86_64-linux-gnu"

    def run(self, *words):
        """Returns what a command of the cluster prints."""
        ran = subprocess.run(words, env=self.environment, cwd=self.work, capture_output=True, timeout=JOB, check=False)
        if ran.returncode:
            raise Fault(f"{' '.join(words)[:200]}: status {ran.returncode} {ran.stderr.decode(errors='replace').strip()[-500:]}")
        return ran.stdout.decode()

    # ---- the daemons
    def unpack(self):
        """Downloads the packages, and those that they need and the machine doesn't have, and unpacks them."""
        archives = f"{self.room}/archives"
        options = ["-o", f"Dir::Cache::archives={archives}", "-o", "Debug::NoLocking=1", "-o", "APT::Sandbox::User="]
        self.run("apt-get", "install", "-y", "-q", "--no-install-recommends", "--reinstall", "--download-only", *options, *PACKAGES)
        for path in glob.glob(f"{archives}/*.deb"):
            self.run("dpkg-deb", "-x", path, self.root)

    def configure(self):
        host, user, ports = socket.gethostname(), pwd.getpwuid(os.geteuid()).pw_name, free_ports(len(self.names) + 1)
        text = CONFIGURATION.format(host=host, here=HERE, port=ports[0], user=user, room=self.room, libraries=self.libraries)
        nodes = [NODE.format(name=name, host=host, here=HERE, port=port) for name, port in zip(self.names, ports[1:])]
        self.write("slurm.conf", text + "".join(nodes))
        with open(os.open(f"{self.room}/key", os.O_WRONLY | os.O_CREAT, 0o400), "wb") as file:
            file.write(os.urandom(1024))

    def write(self, name, text, mode=0o644):
        path = os.path.join(self.room, name)
        with open(path, "w", encoding="utf-8") as file:
            file.write(text)
        os.chmod(path, mode)

    def start(self, name, *words):
        """Starts a daemon, which gets SIGTERM if this process is killed. Its own session keeps SIGINT from it: `end` ends it."""
        with open(f"{self.room}/{name}.out", "wb") as file:
            how = {"stdin": subprocess.DEVNULL, "stdout": file, "stderr": file, "start_new_session": True, "cwd": self.room}
            self.daemons.append((name, subprocess.Popen(["setpriv", "--pdeathsig", "TERM", *words], env=self.environment, **how)))

    def begin(self):
        programs, room = f"{self.root}/usr/sbin", self.room
        paths = [f"--{it}-file={room}/munge.{it}" for it in ("pid", "log", "seed")]
        self.start("munged", f"{programs}/munged", "--foreground", f"--key-file={room}/key", f"--socket={room}/munge.socket", *paths)
        until(lambda: self.alive() and os.path.exists(f"{room}/munge.socket"), DAEMONS, "munged")
        self.start("slurmctld", f"{programs}/slurmctld-wlm", "-D")
        for name in self.names:
            self.start(f"slurmd-{name}", f"{programs}/slurmd-wlm", "-D", "-N", name, "-d", f"{programs}/slurmstepd-wlm")
        until(lambda: self.alive() and self.idle(), DAEMONS, "all nodes are idle")

    def alive(self):
        """Checks that no daemon has ended."""
        for name, it in self.daemons:
            if it.poll() is not None:
                with open(f"{self.room}/{name}.out", encoding="utf-8", errors="replace") as file:
                    raise Fault(f"{name} ended with {it.returncode}: {file.read()[-500:].strip()}")
        return True

    def idle(self):
        try:
            return self.run("sinfo", "-h", "-N", "-o", "%T").split() == ["idle"] * len(self.names)
        except Fault:
            return False

    def processes(self):
        """The processes of the cluster: those that run its programs, and those that have its configuration in their environment."""
        found = []
        for number in (int(it) for it in os.listdir("/proc") if it.isdigit()):
            with contextlib.suppress(OSError):
                if os.readlink(f"/proc/{number}/exe").startswith(f"{self.root}/"):
                    found.append(number)
                    continue
                with open(f"/proc/{number}/environ", "rb") as file:
                    if f"SLURM_CONF={self.room}/slurm.conf".encode() in file.read().split(b"\0"):
                        found.append(number)
        return found

    def end(self):
        """Ends the daemons, and whatever they began. Returns the processes that are left."""
        for _, it in reversed(self.daemons):
            it.terminate()
        for _, it in reversed(self.daemons):
            with contextlib.suppress(subprocess.TimeoutExpired):
                it.wait(3)
        last = time.monotonic() + DAEMONS
        while self.processes() and time.monotonic() < last:
            for number in self.processes():
                with contextlib.suppress(OSError):
                    os.kill(number, signal.SIGKILL)
            for _, it in self.daemons:
                it.poll()
            time.sleep(PAUSE)
        return self.processes()

    # ---- the jobs
    def submit(self, *words):
        """Submits a script with the options before its name. Returns the job's number."""
        print(f"cluster: sbatch {' '.join(words)}", flush=True)
        return self.run("sbatch", "--parsable", "--output=%x-%a-%j.out", *words).strip().partition(";")[0]

    def states(self, job):
        """The state of each task of a job."""
        lines = self.run("squeue", "-h", "-r", "-t", "all", "-j", job, "-o", "%K %T").splitlines()
        return dict(line.split() for line in lines)

    def finish(self, job):
        """Waits until a job has ended. Returns the states of its tasks."""
        return until(lambda: self.alive() and ended(self.states(job)), JOB, f"job {job}")

    def logs(self):
        """The last lines of each daemon's log."""
        return "".join(f"{os.path.basename(path)}: {line}" for path in sorted(glob.glob(f"{self.room}/*.log")) for line in last_lines(path))

    def printed(self, name):
        """What the jobs of a script have printed."""
        said = []
        for path in sorted(glob.glob(f"{self.work}/{name}-*.out")):
            with open(path, encoding="utf-8", errors="replace") as file:
                said.append(f"{os.path.basename(path)}: {file.read()}")
        return "".join(said)


def last_lines(path):
    with open(path, encoding="utf-8", errors="replace") as file:
        return file.readlines()[-5:]


def ended(states):
    return states if states and all(it in ENDED for it in states.values()) else None


def completed(states):
    return all(it == "COMPLETED" for it in states.values())


def contents(store):
    """The tables of a store, as names below it."""
    return {os.path.relpath(path, store) for path in glob.glob(f"{store}/??/*.sframe")}


def differences(one, other):
    """The names that only one of two stores has, and those of different bytes."""
    names = contents(one), contents(other)
    return sorted(names[0] ^ names[1]) + sorted(it for it in names[0] & names[1] if not filecmp.cmp(f"{one}/{it}", f"{other}/{it}", shallow=False))


def of_task(files, task, tasks):
    """The tables that only one task makes, as names below a store. awk numbers the files from 1."""
    found = {True: set(), False: set()}
    for number, path in enumerate(files, 1):
        with contextlib.suppress(tables.Stop):
            found[number % tasks == task].add(tables.place("", path))
    return found[True] - found[False]


def kill_one(cluster, job, task, wanted, store):
    """Kills a task as soon as some of its tables are there."""
    if len(wanted) <= BEGUN:
        raise Fault(f"task {task} has only {len(wanted)} tables to make, too few to kill it on the way")
    begun = f"{BEGUN} tables of task {task}"
    until(lambda: len(wanted & contents(store)) >= BEGUN or ended(cluster.states(job)), JOB, begun)
    cluster.run("scancel", "--full", "--signal=KILL", f"{job}_{task}")


def try_store(tries, cluster, files, tasks):
    """The tables of all files by an array job, one task of which is killed and submitted again."""
    with open(f"{cluster.work}/files", "w", encoding="utf-8", errors="surrogateescape") as file:
        file.writelines(f"{path}\n" for path in files)
    alone, store = f"{cluster.room}/alone", f"{cluster.work}/store"
    print(f"cluster: kiblawen-add makes the tables of {len(files)} files without the cluster", flush=True)
    began = time.monotonic()
    for start in range(0, len(files), 1000):
        cluster.run("kiblawen-add", "-j", str(len(cluster.names)), "--lenient", "--into-store", alone, *files[start : start + 1000])
    print(f"cluster: {len(contents(alone))} tables, {time.monotonic() - began:.0f} s", flush=True)
    began, killed = time.monotonic(), tasks // 2
    wanted = of_task(files, killed, tasks) & contents(alone)
    job = cluster.submit(f"--array=0-{tasks - 1}", "share", str(tasks))
    kill_one(cluster, job, killed, wanted, store)
    states = cluster.finish(job)
    said = f"{cluster.printed('share')}\n{states}"
    counted, state = len(states), states.pop(str(killed), "MISSING")
    passed = counted == tasks and state not in ("MISSING", "COMPLETED") and completed(states)
    tries.check(f"task {killed} was killed and is {state}, and the {tasks - 1} others completed", passed, said)
    missing = contents(alone) - contents(store)
    shown = f"{len(missing)} of the {len(wanted)} tables of task {killed} are missing, and no others"
    tries.check(shown, missing and missing <= wanted, f"{sorted(missing - wanted)}")
    rooms = glob.glob(f"{store}/??/{tables.ROOM}*")
    again = cluster.submit(f"--array={killed}", "share", str(tasks))
    tries.check(f"task {killed}, submitted again, completed", completed(cluster.finish(again)), cluster.printed("share"))
    folders = f"{len(rooms)} folder{'' if len(rooms) == 1 else 's'} {tables.ROOM}.."
    print(f"cluster: {time.monotonic() - began:.0f} s, and {folders} of the killed task", flush=True)
    found, count = differences(alone, store), len(contents(alone))
    tries.check(f"the store of the cluster has the same {count} tables, byte for byte", count and not found, "\n".join(found))


def extract_objects(cluster):
    """Extracts objects of libc.a, and lists them as OBJECT@BASE. Returns how many there are."""
    archive = (common.output("cc", "-print-file-name=libc.a") or "").strip()
    if not os.path.isabs(archive):
        raise Fault("there is no libc.a")
    folder = f"{cluster.work}/o"
    os.makedirs(folder)
    cluster.run("ar", "x", "--output", folder, archive)
    base, lines = elf.PAGE, []
    for name in sorted(os.listdir(folder))[:OBJECTS]:
        lines.append(f"o/{name}@{base:#x}\n")
        base += elf.page_after(f"{folder}/{name}")
    with open(f"{cluster.work}/objects", "w", encoding="utf-8") as file:
        file.writelines(lines)
    return len(lines)


def try_merge(tries, cluster):
    """One section of many objects, by jobs that link parts and merge them."""
    count = extract_objects(cluster)
    alone = cluster.run("sh", "-c", "sf_tool link alone@0x10000000 $(cat objects)").splitlines()[-1]
    print(f"cluster: one link of {count} objects of libc.a without the cluster: {alone}", flush=True)
    parts = cluster.submit(f"--array=0-{PARTS - 1}", "part", str(PARTS))
    pairs = cluster.submit(f"--dependency=afterok:{parts}", f"--array=0-{PARTS // 2 - 1}", "pair")
    last = cluster.submit(f"--dependency=afterok:{pairs}", "--array=0", "all")
    for name, job in ("part", parts), ("pair", pairs), ("all", last):
        states = cluster.finish(job)
        if not tries.check(f"the tasks of {name} completed", completed(states), f"{cluster.printed(name)}\n{states}"):
            return
    same = filecmp.cmp(f"{cluster.work}/alone", f"{cluster.work}/merged", shallow=False)
    tries.check(f"the section that the cluster merged of {PARTS} parts has the same bytes as that of one link", same)


def run_all(tries, cluster, tool, files, tasks):
    print(f"cluster: apt-get downloads {' '.join(PACKAGES)}", flush=True)
    cluster.unpack()
    cluster.configure()
    for name, text in SCRIPTS.items():
        cluster.write(f"work/{name}", text, 0o755)
    os.symlink(common.at_top("tools", "kiblawen-add"), f"{cluster.room}/bin/kiblawen-add")
    os.symlink(tool, f"{cluster.room}/bin/sf_tool")
    cluster.begin()
    tries.check(f"{cluster.run('sinfo', '-V').strip()} runs on {len(cluster.names)} nodes with one slot each", True)
    try_store(tries, cluster, files, tasks)
    try_merge(tries, cluster)


def interrupt(*_):
    raise KeyboardInterrupt


def try_in(room, tries, given, tool, files):
    """Runs all in a folder, and ends the cluster in any case."""
    os.chmod(room, 0o755)
    cluster, status = Cluster(room, given.nodes), 0
    try:
        run_all(tries, cluster, tool, files, given.tasks)
    except KeyboardInterrupt:
        status = add.INTERRUPTED
    except (Fault, OSError, subprocess.TimeoutExpired) as fault:
        tries.check(str(fault), False, cluster.logs())
    finally:
        for it in (signal.SIGINT, signal.SIGTERM, signal.SIGHUP):
            signal.signal(it, signal.SIG_IGN)
        left = cluster.end()
    tries.check("no process of the cluster is left", not left, str(left))
    return status


def main(words):
    parser = common.parser(__name__, __doc__)
    program.add_option(parser)
    parser.add_argument("--nodes", metavar="N", type=add.jobs, default=2, help="nodes with one slot each, by default 2")
    parser.add_argument("--tasks", metavar="N", type=add.jobs, default=8, help="tasks of the array job, by default 8")
    parser.add_argument("folder", nargs="?", metavar="DIR", default="/usr/bin")
    given = parser.parse_args(words)
    tool = program.find(__name__, given.tool)
    missing = [it for it in NEEDED if not shutil.which(it)]
    if missing:
        common.fail(__name__, f"there is no {missing[0]}")
    found, lost = add.find_files([given.folder])
    files = [names[0] for names in found]
    if lost or len(files) < 4 * given.tasks:
        common.fail(__name__, lost[0] if lost else f"{given.folder} has {len(files)} programs and shared objects, too few for {given.tasks} tasks")
    tries = stranger.Tries()
    for it in (signal.SIGTERM, signal.SIGHUP):
        signal.signal(it, interrupt)
    with tempfile.TemporaryDirectory(prefix="cluster-") as room:
        status = try_in(room, tries, given, tool, files)
    print(f"{tries.passed} passed, {tries.failed} failed, {tries.skipped} skipped")
    return status or int(tries.failed > 0)
