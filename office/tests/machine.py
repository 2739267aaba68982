"""Boots this machine's Debian a second time with systemd-nspawn, for tests of the services. What a booted system writes is kept in memory, apart from this
machine, and it has no network but its loopback."""
import os
import pathlib
import shutil
import subprocess
import uuid

import pytest

ROOT = pathlib.Path(__file__).resolve().parent.parent.parent
# What each script of a test begins with. It ends with its first command that fails, and prints the
# messages of the services then.
BEGINNING = r"""#!/bin/bash
exec >/booted.log 2>&1
trap '[ $? = 0 ] || journalctl --no-pager -u "station-office*"; systemctl poweroff' EXIT
fails() { if "$@"; then return 1; fi; }
eventually() { for _ in $(seq 200); do if "$@"; then return; fi; sleep 0.2; done; return 1; }
says() { journalctl --no-pager -o cat -u "$1" | grep -F -e "$2"; }
status_of() { systemctl show -P ExecMainStatus "$1"; }
results_in() { [ "$(systemctl show -P Result "$1")" = "$2" ]; }
rests() { [ "$(systemctl show -P ActiveState "$1")" = inactive ]; }
set_to() { sed -i "s|^$1=.*|$1=$2|" /etc/default/station-office; }
# The examples cover no day of now, and services end with status 5 then.
accepts_uncovered_days() {
  mkdir -p /etc/systemd/system/station-office@.service.d
  printf '[Service]\nSuccessExitStatus=5\n' >/etc/systemd/system/station-office@.service.d/uncovered.conf
  systemctl daemon-reload
}
set -ex
folder=/var/lib/station-office
examples=/usr/share/doc/station-docker/examples
"""
UNITS = {
    "booted.service": "[Unit]\nAfter=multi-user.target\n[Service]\nExecStart=/booted\n",
    "booted.target": "[Unit]\nRequires=basic.target booted.service multi-user.target\nAfter=basic.target\nAllowIsolate=yes\n",
}


def run(*words, **how):
    return subprocess.run(words, stdin=subprocess.DEVNULL, stdout=subprocess.PIPE, stderr=subprocess.STDOUT, text=True, check=False, **how)


def is_built_here():
    """Whether the tested program is the one that `./docker` runs and ./install installs."""
    return pathlib.Path(os.environ["DOCKER"]).resolve() == ROOT / "crates" / "docker" / "out" / "docker"


def lacks():
    """Why this machine can't boot another system with the package; None if it can."""
    if not is_built_here():
        return "the package has another program than the tested one"
    if os.geteuid() != 0:
        return "only root can boot another system"
    if missing := [name for name in ("systemd-nspawn", "dpkg", "deb-systemd-invoke") if shutil.which(name) is None]:
        return f"there is no {missing[0]}"
    return None if os.path.realpath("/sbin/init").endswith("/systemd") else "this machine's system isn't started by systemd"


class Machine:
    """A system with this machine's programs and files, with the package installed."""

    def __init__(self, folder, package):
        self.folder, self.root = folder, folder / "root"
        self.number = 0
        folder.mkdir()
        self.mounts("-t", "tmpfs", "tmpfs", folder)
        try:
            for name in ("upper", "work", "root"):
                (folder / name).mkdir()
            self.mounts("-t", "overlay", "-o", f"lowerdir=/,upperdir={folder}/upper,workdir={folder}/work", "overlay", self.root)
            self.prepares(package)
        except BaseException:
            self.ends()
            raise

    def mounts(self, *words):
        if run("mount", *words).returncode != 0:
            pytest.skip("no file system can be mounted")

    def prepares(self, package):
        """Installs the package. No other service of this machine is started, and packages may start and stop services."""
        units = self.root / "etc" / "systemd" / "system"
        (self.root / "usr" / "sbin" / "policy-rc.d").unlink(missing_ok=True)
        for wanted in units.glob("*.wants"):
            shutil.rmtree(wanted)
        for name, text in UNITS.items():
            (units / name).write_text(text)
        shutil.copy(package, self.root / "station-docker.deb")
        log = run("chroot", self.root, "dpkg", "-i", "/station-docker.deb").stdout
        assert (self.root / "usr/bin/station-office").exists(), log

    def boots(self, script):
        """Boots the system, and runs a script in it. Returns what the script and its commands printed."""
        self.number += 1
        (self.root / "booted").write_text(f"{BEGINNING}{script}\necho passed\n", encoding="utf-8")
        (self.root / "booted").chmod(0o755)
        name = f"office-{uuid.uuid4().hex[:12]}"
        boot = run("timeout", "100", "systemd-nspawn", "-q", "--register=no", "--keep-unit", "--private-network", "-M", name, "-b", "-D", self.root, "systemd.unit=booted.target")
        log = self.root / "booted.log"
        if not log.exists() and self.number == 1:
            pytest.skip(f"this machine can't boot another system: {boot.stdout.strip().splitlines()[-1:]}")
        found = log.read_text(encoding="utf-8", errors="replace")
        assert "\n+ echo passed\npassed\n" in found, found
        return found

    def path(self, name):
        """A file of the system."""
        return self.root / name

    def ends(self):
        run("umount", self.root)
        run("umount", self.folder)
