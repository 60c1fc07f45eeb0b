#!/usr/bin/env python3
"""Tries the Slurm line of docs/TEXTURES.md on a cluster of this one machine.

It needs root and Debian's slurm-wlm and munge. It starts munged, slurmctld and slurmd with files in a temporary folder,
makes textures by the line, compares them with those of a run without Slurm, and ends what it started.
"""
import argparse
import os
import re
import shutil
import socket
import subprocess
import sys
import tempfile
import time
from pathlib import Path

from texcheck.common import TOP, Missing, add_program, debian_python, program_of, tool
from texcheck.prepare_images import plain

CONFIGURATION = """ClusterName=prepare
SlurmctldHost={host}
SlurmUser=root
AuthType=auth/munge
AuthInfo=socket={room}/munge.socket
CryptoType=crypto/munge
SlurmctldPort={port}
SlurmdPort={next_port}
StateSaveLocation={room}/state
SlurmdSpoolDir={room}/spool
SlurmctldPidFile={room}/slurmctld.pid
SlurmdPidFile={room}/slurmd.pid
ProctrackType=proctrack/linuxproc
TaskPlugin=task/none
JobAcctGatherType=jobacct_gather/none
AccountingStorageType=accounting_storage/none
ReturnToService=2
SelectType=select/cons_tres
SelectTypeParameters=CR_CPU
NodeName={host} CPUs={processors} State=UNKNOWN
PartitionName=all Nodes={host} Default=YES State=UP
"""
FILES, SECONDS = 40, 400
PROGRAMS = ("munged", "slurmctld", "slurmd", "sbatch", "squeue", "sinfo")


class Cluster:
    """The daemons of a cluster of one machine; they end with it."""

    def __init__(self, room):
        self.room, self.started = room, []
        self.environment = {**os.environ, "SLURM_CONF": str(room / "slurm.conf")}
        processors = len(os.sched_getaffinity(0))
        for it in ("state", "spool"):
            (room / it).mkdir()
        host = socket.gethostname().split(".")[0]
        (room / "slurm.conf").write_text(CONFIGURATION.format(host=host, room=room, port=16817, next_port=16818,
                                                              processors=processors), encoding="ascii")
        key = room / "munge.key"
        key.write_bytes(os.urandom(1024))
        key.chmod(0o400)

    def start(self, *words):
        with open(self.room / f"{words[0]}.log", "wb") as log:
            self.started.append(subprocess.Popen(words, env=self.environment, stdin=subprocess.DEVNULL, stdout=log,
                                                 stderr=log))

    def __enter__(self):
        room = self.room
        self.start("munged", "--foreground", "--force", f"--key-file={room}/munge.key", f"--socket={room}/munge.socket",
                   f"--pid-file={room}/munged.pid", f"--seed-file={room}/munged.seed", f"--log-file={room}/munged.txt")
        self.wait_for(lambda: (room / "munge.socket").exists(), "munged")
        self.start("slurmctld", "-D")
        self.start("slurmd", "-D")
        self.wait_for(lambda: "idle" in self.said("sinfo", "--noheader", "--format=%t"), "the node")
        return self

    def __exit__(self, *_):
        for child in reversed(self.started):
            child.terminate()
            try:
                child.wait(timeout=20)
            except subprocess.TimeoutExpired:
                child.kill()

    def said(self, *words, **more):
        return subprocess.run(words, env=self.environment, stdout=subprocess.PIPE, stderr=subprocess.STDOUT, text=True,
                              check=False, **more).stdout

    def wait_for(self, is_so, what):
        until = time.monotonic() + SECONDS
        while not is_so():
            if time.monotonic() > until or any(it.poll() is not None for it in self.started):
                logs = "".join(it.read_text(errors="replace")[-800:] for it in self.room.glob("*.log"))
                raise Missing(f"{what} is not ready\n{logs}")
            time.sleep(0.5)


def textures(folder):
    return {str(it.relative_to(folder)): it.read_bytes() for it in folder.rglob("*.tif")}


def main():
    asked = argparse.ArgumentParser(description=__doc__, formatter_class=argparse.RawDescriptionHelpFormatter,
                                    allow_abbrev=False)
    add_program(asked, "texmake")
    args = asked.parse_args()
    missing = [it for it in PROGRAMS if not shutil.which(it, path=os.environ["PATH"] + ":/usr/sbin")]
    if missing or os.getuid() != 0:
        raise Missing(f"{', '.join(missing)}: not installed; apt-get install slurm-wlm munge" if missing else "root is needed")
    os.environ["PATH"] += ":/usr/sbin"
    line = re.search(r"^sbatch .*$", (TOP / "docs" / "TEXTURES.md").read_text(encoding="utf-8"), re.M)[0]
    with tempfile.TemporaryDirectory(prefix="slurm-") as made:
        place = Path(made)
        place.chmod(0o755)
        (place / "in" / "sub").mkdir(parents=True)
        for number in range(FILES):
            (place / "in" / ("sub" * (number % 2)) / f"image {number}.tif").write_bytes(plain(64 + number, 48))
        prepare = [debian_python(), TOP / "tools" / "prepare.py", place / "in"]
        program = ["--program", program_of(args, "texmake")]
        with open(place / "list", "wb") as commands:
            subprocess.run([*prepare, place / "out", "--list", *program], stdout=commands, check=True)
        subprocess.run([*prepare, place / "wanted", *program], stdout=subprocess.DEVNULL, check=True)
        (place / "cluster").mkdir()
        with Cluster(place / "cluster") as cluster:
            said = cluster.said("sh", "-c", line, cwd=place)
            print(said.strip(), flush=True)
            cluster.wait_for(lambda: not cluster.said("squeue", "--noheader").strip(), "the job")
        found, wanted = textures(place / "out"), textures(place / "wanted")
        if found != wanted or len(wanted) != FILES:
            logs = "".join(it.read_text(errors="replace") for it in sorted(place.glob("slurm-*.out"))[:3])
            print(f"try_slurm.py: {len(found)} of {len(wanted)} textures are made, or some differ\n{logs}", file=sys.stderr)
            return 1
    print(f"try_slurm.py: all {FILES} textures are those that a run without Slurm makes")
    return 0


if __name__ == "__main__":
    tool(main)
