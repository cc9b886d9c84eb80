"""Virtual machines with a Debian 12 in a network namespace: an image for all of them, and three of them as a cluster."""

from __future__ import annotations

import contextlib
import os
import pathlib
import shutil
import signal
import subprocess
from collections.abc import Callable
from typing import Optional

from machine import HERE, holds

CLUSTER_FILES = os.path.join(HERE, "packaging/cluster")
SPACE, CLUSTER, OFFICE = "standby", "192.0.2", "198.51.100"
FLOATING, CLIENTS, PORT = f"{CLUSTER}.10", f"{CLUSTER}.100", 11112
NUMBERS = {"a": 1, "b": 2, "c": 3, "solo": 10}  # the last byte of the addresses of a machine; `solo` is in no cluster
PACKAGES = ("adduser,systemd,systemd-sysv,udev,dbus,iproute2,iputils-arping,kmod,e2fsprogs,openssh-server,procps,python3-pydicom,psmisc,"
            "linux-image-amd64,initramfs-tools")
MORE = "drbd-utils pacemaker pacemaker-cli-utils corosync sbd crmsh resource-agents".split()
MODULES = "virtio_pci\nvirtio_blk\nvirtio_net\next4\n"
PATIENCE = 900.0  # seconds for a machine or a cluster to come up: emulated processors are slow
EMULATED = ["-accel", "tcg,thread=multi,tb-size=192", "-cpu", "max"]
BY_KVM = ["-accel", "kvm", "-cpu", "host"]
VOLUME = "/var/lib/upsd-volume"  # root's, with the options, and the folder of the store, which is the server's
STORE = f"{VOLUME}/upsd/upsd.db"


def run(*words: str, check: bool = True, given: Optional[str] = None) -> str:
    """Runs a command, and returns what it says."""
    ran = subprocess.run(words, input=given, stdout=subprocess.PIPE, stderr=subprocess.STDOUT, text=True)
    if check and ran.returncode:
        raise OSError(f"{' '.join(words)[:200]}: status {ran.returncode}: {ran.stdout[-1500:]}")
    return ran.stdout


def put(path: str, text: str) -> None:
    os.makedirs(os.path.dirname(path), exist_ok=True)
    pathlib.Path(path).write_text(text, encoding="utf-8")


# the image

def settings() -> dict[str, str]:
    """Returns the files of the machines by path: those of packaging/cluster, and those of machines that are emulated."""
    found = {"etc/modules-load.d/watchdog.conf": "i6300esb\n",
             "etc/systemd/system/sbd.service.d/slow.conf": "# for emulated processors\n[Service]\nTimeoutStartSec=600\n"}
    for path, name in (("etc/corosync/corosync.conf", "corosync.conf"), ("etc/default/sbd", "sbd"), ("etc/drbd.d/upsd.res", "upsd.res"),
                       ("etc/systemd/system/upsd.service.d/cluster.conf", "cluster.conf")):
        found[path] = pathlib.Path(os.path.join(CLUSTER_FILES, name)).read_text(encoding="utf-8")
    for number in NUMBERS.values():
        for card, place in (("eth0", CLUSTER), ("eth1", OFFICE)):
            found[f"etc/systemd/network/{card}-{number}.network"] = (
                f"[Match]\nName={card}\nKernelCommandLine=node={number}\n[Network]\nAddress={place}.{number}/24\nLinkLocalAddressing=no\n")
    return found


def make(work: str, program: str, is_checked: bool) -> None:
    """Makes the image from which all machines start, with the packages of upsd and its client. A program that is built with checks gets no LimitAS."""
    root = os.path.join(work, "root")
    if not os.path.exists(os.path.join(root, "usr/sbin/pacemakerd")):
        run("debootstrap", "--variant=minbase", f"--include={PACKAGES}", "bookworm", root)
        run("chroot", root, "apt-get", "install", "-y", "--no-install-recommends", *MORE)
    for path, text in settings().items():
        put(os.path.join(root, path), text)
    if is_checked:
        put(os.path.join(root, "etc/systemd/system/upsd.service.d/checked.conf"), "[Service]\nLimitAS=infinity\n")
    for package in run(os.path.join(HERE, "packaging/build"), "--program", program, "--output", work).strip().splitlines()[-2:]:
        shutil.copy(package, os.path.join(root, "root"))
        run("chroot", root, "dpkg", "--force-confold", "-i", f"/root/{os.path.basename(package)}")
    run("sh", "-c", f"rm -f {root}/var/lib/upsd/upsd.db*")  # the store is that of the volume
    os.makedirs(root + VOLUME, exist_ok=True)
    put(os.path.join(root, "etc/fstab"), "/dev/vda / ext4 defaults 0 1\n")
    put(os.path.join(root, "etc/initramfs-tools/modules"), MODULES)
    run("sed", "-i", "s/^MODULES=.*/MODULES=list/", os.path.join(root, "etc/initramfs-tools/initramfs.conf"))
    run("chroot", root, "update-initramfs", "-u")
    run("chroot", root, "systemctl", "enable", "systemd-networkd", "sbd", "corosync", "pacemaker", "ssh")
    run("chroot", root, "systemctl", "disable", "apt-daily.timer", "apt-daily-upgrade.timer", "e2scrub_all.timer", check=False)
    let_in(work, root)
    lay(work, root)


def let_in(work: str, root: str) -> None:
    """Makes a key by which this script may run commands on the machines."""
    key = os.path.join(work, "key")
    if not os.path.exists(key):
        run("ssh-keygen", "-q", "-t", "ed25519", "-N", "", "-f", key)
    with open(key + ".pub", encoding="utf-8") as file:
        put(os.path.join(root, "root/.ssh/authorized_keys"), file.read())


def lay(work: str, root: str) -> None:
    """Makes a file system of a folder, and copies the kernel and its first file system out of it."""
    for name in ("vmlinuz", "initrd.img"):
        found = max(it for it in os.listdir(os.path.join(root, "boot")) if it.startswith(name))
        shutil.copy(os.path.join(root, "boot", found), os.path.join(work, name))
    image = os.path.join(work, "base.img")
    with contextlib.suppress(FileNotFoundError):
        os.remove(image)
    run("truncate", "-s", "4G", image)
    run("mkfs.ext4", "-q", "-F", "-d", root, image)


# machines

class Machine:
    """A virtual machine, which may run."""

    def __init__(self, work: str, name: str, has_kvm: bool) -> None:
        self.work, self.name, self.number, self.has_kvm = work, name, NUMBERS[name], has_kvm

    def path(self, ending: str) -> str:
        return os.path.join(self.work, f"{self.name}.{ending}")

    def start(self) -> None:
        if not os.path.exists(self.path("qcow2")):
            run("qemu-img", "create", "-q", "-f", "qcow2", "-F", "raw", "-b", os.path.join(self.work, "base.img"), self.path("qcow2"))
            run("truncate", "-s", "256M", self.path("data"))
        command = self.words()
        for place in ("cluster", "office"):
            command += self.card(place)
        with open(self.path("qemu"), "w", encoding="utf-8") as log:
            process = subprocess.Popen(command, stdin=subprocess.DEVNULL, stdout=log, stderr=log, start_new_session=True)
        put(self.path("pid"), str(process.pid))

    def words(self) -> list[str]:
        """Returns the words of its QEMU, without its network."""
        kernel = f"console=ttyS0 root=/dev/vda rw net.ifnames=0 mitigations=off node={self.number} systemd.hostname={self.name}"
        if self.name == "solo":
            kernel += " systemd.mask=sbd.service systemd.mask=corosync.service systemd.mask=pacemaker.service"
        return ["qemu-system-x86_64", *(BY_KVM if self.has_kvm else EMULATED), "-smp", "2", "-m", "640", "-display", "none", "-nodefaults",
                "-serial", f"file:{self.path('console')}", "-kernel", os.path.join(self.work, "vmlinuz"),
                "-initrd", os.path.join(self.work, "initrd.img"), "-append", kernel,
                "-drive", f"file={self.path('qcow2')},if=virtio,format=qcow2", "-drive", f"file={self.path('data')},if=virtio,format=raw",
                "-device", "i6300esb", "-action", "watchdog=reset"]

    def card(self, place: str) -> list[str]:
        """Makes its card in a network, and returns the words for it."""
        tap = f"{place[0]}-{self.name}"
        run("ip", "tuntap", "add", tap, "mode", "tap", check=False)
        run("ip", "link", "set", tap, "master", place, "up")
        mac = f"52:54:00:00:0{place == 'office':d}:{self.number:02x}"
        return ["-netdev", f"tap,id={place},ifname={tap},script=no,downscript=no",
                "-device", f"virtio-net-pci,netdev={place},mac={mac},romfile="]

    def pid(self) -> int:
        """Returns the process of its QEMU, or 0."""
        with contextlib.suppress(OSError, ValueError), open(self.path("pid"), encoding="utf-8") as file:
            number = int(file.read())
            with open(f"/proc/{number}/cmdline", encoding="utf-8") as words:
                return number if self.path("qcow2") in words.read() else 0
        return 0

    def signal(self, number: int) -> None:
        """Sends a signal to its QEMU: SIGKILL takes its power away, and SIGSTOP makes its time stand still until SIGCONT."""
        if pid := self.pid():
            os.kill(pid, number)

    def kill(self) -> None:
        self.signal(signal.SIGKILL)
        holds(lambda: not self.pid(), 10)

    def cable(self, is_plugged: bool) -> None:
        """Plugs or pulls its cable to the network of the cluster."""
        run("ip", "link", "set", f"c-{self.name}", "up" if is_plugged else "down")

    def says(self, words: str, check: bool = False, given: Optional[str] = None) -> str:
        """Runs a line of shell there, over the second network."""
        return run("ssh", "-i", os.path.join(self.work, "key"), "-o", "StrictHostKeyChecking=no", "-o", "UserKnownHostsFile=/dev/null",
                   "-o", "LogLevel=ERROR", "-o", "ConnectTimeout=20", "-o", "ServerAliveInterval=5", "-o", "ControlMaster=auto",
                   "-o", f"ControlPath={self.path('ssh')}", "-o", "ControlPersist=120",
                   f"root@{OFFICE}.{self.number}", words, check=check, given=given)

    def is_up(self) -> bool:
        with contextlib.suppress(FileNotFoundError):
            os.remove(self.path("ssh"))
        return "yes" in self.says("echo yes")

    def fill_volume(self, folder: str, options: str) -> None:
        """Makes a store and the options of `serve` on a volume that is mounted there."""
        self.says(f"install -d -o upsd -g upsd -m 700 {folder}/upsd && runuser -u upsd -- upsd init {folder}/upsd/upsd.db", check=True)
        self.says(f"cat > {folder}/upsd.options && sync", check=True, given=f'UPSD_OPTIONS="{options}"\n')


def network() -> None:
    """Makes the two networks, in this network namespace."""
    for place, address in (("cluster", CLIENTS), ("office", f"{OFFICE}.100")):
        run("ip", "link", "add", place, "type", "bridge", "stp_state", "0", "forward_delay", "0", check=False)
        run("ip", "addr", "replace", f"{address}/24", "dev", place)
        run("ip", "link", "set", place, "up")
    run("ip", "link", "set", "lo", "up")


def await_up(machines: list[Machine]) -> None:
    for it in machines:
        if not holds(it.is_up, PATIENCE):
            raise OSError(f"machine {it.name} does not come up")


# the cluster

def configure(a: Machine, b: Machine, options: str) -> None:
    """Makes the volume with a store and these options, and the resources of the cluster."""
    for it in (a, b):
        it.says("modprobe drbd && drbdadm create-md --force upsd && drbdadm up upsd", check=True)
    if not holds(lambda: "cs:Connected" in a.says("cat /proc/drbd"), PATIENCE):
        raise OSError("the disks do not find each other: " + a.says("cat /proc/drbd"))
    # both disks are empty, and so alike: no first synchronisation
    a.says("drbdadm -- --clear-bitmap new-current-uuid upsd && drbdadm primary upsd && mkfs.ext4 -q /dev/drbd0 && mount /dev/drbd0 /mnt",
           check=True)
    a.fill_volume("/mnt", options)
    a.says("umount /mnt && drbdadm secondary upsd", check=True)
    for it in (a, b):
        it.says("drbdadm down upsd", check=True)
    if not holds(lambda: "Online: [ a b c ]" in a.says("crm_mon -1"), PATIENCE):
        raise OSError("no cluster: " + a.says("crm_mon -1"))
    with open(os.path.join(CLUSTER_FILES, "cluster.crm"), encoding="utf-8") as file:
        print(a.says("crm configure load update /dev/stdin", given=file.read()), flush=True)
    put(a.path("configured"), "")


def are_alike(*machines: Machine) -> bool:
    """Returns whether each of these machines sees its disk and that of the other one alike."""
    return all("ds:UpToDate/UpToDate" in it.says("cat /proc/drbd") for it in machines)


def up(machines: dict[str, Machine], options: str, answers: Callable[[], bool]) -> None:
    """Starts the three machines, and waits for an answer; the first time it makes the volume and configures the cluster."""
    network()
    a, b = machines["a"], machines["b"]
    is_new = not os.path.exists(a.path("configured"))
    for it in machines.values():
        if not it.pid():
            it.start()
    await_up(list(machines.values()))
    if is_new:
        configure(a, b, options)
    if not holds(answers, PATIENCE):
        raise OSError("no answer: " + a.says("crm_mon -1rf; journalctl -b -n 50 --no-pager"))
    # a standby that connects later stops the disk's writes for a while
    if not holds(lambda: are_alike(a, b), PATIENCE):
        raise OSError("the disks are not alike: " + a.says("cat /proc/drbd; crm_mon -1rf"))
