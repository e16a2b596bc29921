"""A department in a folder of its own, with the surroundings of the tools. A small program stands in the place of systemctl."""
import os
import subprocess

from trial import DEPLOY, PROGRAM, free_port

OWNER = 54321
USER = f"setpriv --reuid={OWNER} --regid={OWNER} --clear-groups --no-new-privs --bounding-set=-all"
SYSTEMCTL = """#!/bin/bash
# Stands in the place of systemctl: one portal, whose process is told in the file pid, under a user of its own where root plays.
cd "{folder}"
case $1 in
  start) setsid {user} "{program}" serve state/chem/year.db --port {port} --connections 1000000 >served 2>&1 & echo $! >pid ;;
  stop) kill "$(cat pid)"; while kill -0 "$(cat pid)" 2>/dev/null; do sleep 0.005; done; rm pid ;;
  is-active) if [ -f pid ]; then echo active; else echo inactive; false; fi ;;
esac
"""


class Place:
    """A folder with a department, its portal's port, and the tools' surroundings."""

    def __init__(self, folder):
        self.folder, self.port = folder, free_port()
        self.state, self.backups, self.etc = f"{folder}/state", f"{folder}/backups", f"{folder}/etc"
        for one in ("bin", "state/chem", "etc"):
            os.makedirs(f"{folder}/{one}")
        os.chmod(folder, 0o755)
        with open(f"{folder}/bin/systemctl", "w") as file:
            file.write(SYSTEMCTL.format(folder=folder, program=PROGRAM, port=self.port, user=USER if os.geteuid() == 0 else ""))
        os.chmod(f"{folder}/bin/systemctl", 0o755)
        self.settings("KEEP=3\n")
        self.surroundings = dict(os.environ, PATH=f"{folder}/bin:{os.environ['PATH']}", PORTAL_STATE=self.state, PORTAL_BACKUPS=self.backups,
                                 PORTAL_ETC=self.etc, PORTAL_PROGRAM=PROGRAM)

    def settings(self, text):
        with open(f"{self.etc}/chem.conf", "w") as file:
            file.write(f"PORT={self.port}\n{text}")

    def run(self, *words):
        done = subprocess.run([words[0] if "/" in words[0] else f"{DEPLOY}/{words[0]}", *words[1:]], env=self.surroundings,
                              stdout=subprocess.PIPE, stderr=subprocess.STDOUT, text=True)
        return done.returncode, done.stdout.strip()

    def systemctl(self, word):
        return self.run(f"{self.folder}/bin/systemctl", word, "portal@chem")[0]

    def copies(self):
        return sorted(one for one in os.listdir(f"{self.backups}/chem") if one.endswith("Z"))

    def file(self):
        return {one: open(f"{self.state}/chem/{one}", "rb").read() for one in sorted(os.listdir(f"{self.state}/chem"))}
