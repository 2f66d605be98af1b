"""Debian's kernels in QEMU: how they are fetched, how the module is built against them, and how one is booted.

Everything is kept in `$XDG_CACHE_HOME/zirkoshe/kernels`, `~/.cache/zirkoshe/kernels` by default: the packages' lists, the unpacked
packages, and the modules. Nothing is installed, and root is not needed.
"""

from __future__ import annotations

import fcntl
import gzip
import hashlib
import lzma
import os
import pathlib
import re
import shutil
import subprocess
import tempfile
from typing import Dict, Iterable, Iterator, List, NamedTuple, Optional, Tuple, Union

REPOSITORY = pathlib.Path(__file__).resolve().parent.parent
SOURCES = REPOSITORY / "clients/kernel"
KEYRING = "/usr/share/keyrings/debian-archive-keyring.gpg"
SUITES = (
    ("http://deb.debian.org/debian", "bookworm"),
    ("http://deb.debian.org/debian-security", "bookworm-security"),
    ("http://deb.debian.org/debian", "bookworm-backports"),
)
# the series of Debian 12 and of its backports
SERIES = ("6.1", "6.12")
# each program that is needed, and the Debian package that has it
PROGRAMS = {
    "qemu-system-x86_64": "qemu-system-x86",
    "busybox": "busybox-static",
    "gcc": "gcc",
    "make": "make",
    "cpio": "cpio",
    "modprobe": "kmod",
    "depmod": "kmod",
    "apt-get": "apt",
    "dpkg-deb": "dpkg",
}
HEADERS = pathlib.Path("/usr/include/libdrm/drm.h")
MODULES = ("virtio_pci", "virtio-gpu", "vgem", "drm_kms_helper")
COMPILE = [
    "gcc",
    "-std=gnu11",
    "-O2",
    "-Wall",
    "-Wextra",
    "-Wpedantic",
    "-Wshadow",
    "-I",
    str(HEADERS.parent),
]
BOOTS = 3
# how much of the console is printed of a boot that failed
CONSOLE = 2000
SECONDS = 900

INIT = """#!/bin/busybox sh
/bin/busybox mount -t proc proc /proc
/bin/busybox mount -t sysfs sys /sys
/bin/busybox mount -t devtmpfs dev /dev
for module in /modules/*.ko; do
    # without the console of the kernel itself, all CRTCs are dark at first
    case $module in *-drm_kms_helper.ko) options=fbdev_emulation=0 ;; *) options= ;; esac
    /bin/busybox insmod $module $options || echo "$module was refused"
done
/bin/busybox stty -F /dev/ttyS1 raw
exec > /dev/ttyS1 2>&1
echo "kernel $(/bin/busybox uname -r)"
for driver in zirkoshe_card virtio_gpu vgem; do
    echo "device $driver"
    /bin/drm_script --driver $driver --topology
    echo "scripts $driver"
    [ ! -f /scripts/$driver ] || /bin/drm_script --driver $driver /scripts/$driver
done
# the module once more, with other topologies, in place of all devices
for module in zirkoshe_card virtio-gpu vgem; do /bin/busybox rmmod $module; done
for device in /topologies/*; do
    [ -f $device ] || continue
    /bin/busybox insmod /modules/*-zirkoshe_card.ko topology=$(/bin/busybox cat $device)
    echo "device ${device#/topologies/}"
    /bin/drm_script --topology
    echo "scripts ${device#/topologies/}"
    /bin/drm_script /scripts/${device#/topologies/}
    /bin/busybox rmmod zirkoshe_card
done
if [ -f /bin/program ]; then
    /bin/busybox insmod /modules/*-zirkoshe_card.ko topology=TOPOLOGY blanks=1
    echo "device program"
    echo "scripts program"
    /bin/program /dev/dri/card* /dev/dri/renderD*
fi
echo "end"
/bin/busybox poweroff -f
"""


class Lacking(Exception):
    """What a comparison needs and could not get."""


class Missing(Lacking):
    """A program or a kernel that this machine does not have."""


class Slow(Lacking):
    """A boot that was not complete in time, at each attempt."""


class Kernel(NamedTuple):
    """A kernel that is unpacked, with its modules and headers."""

    series: str
    release: str
    version: str
    folder: pathlib.Path

    @property
    def image(self) -> pathlib.Path:
        return self.folder / "boot" / f"vmlinuz-{self.release}"

    @property
    def headers(self) -> pathlib.Path:
        return self.folder / "usr/src" / f"linux-headers-{self.release}"


class Program(NamedTuple):
    """A program without shared libraries, and the topology of its device as the module's parameter."""

    path: pathlib.Path
    topology: str


class Load(NamedTuple):
    """What a kernel runs: the scripts of each device, the topologies of those that the module has one after the other, and a program."""

    scripts: Dict[str, str]
    topologies: Dict[str, str] = {}
    program: Optional[Program] = None


class Booted(NamedTuple):
    """What a boot printed: the release, the topology of each device, and the lines of its scripts."""

    release: str
    topologies: Dict[str, str]
    answers: Dict[str, List[str]]


def cache() -> pathlib.Path:
    """The folder in which kernels are kept between runs."""
    base = os.environ.get("XDG_CACHE_HOME") or pathlib.Path.home() / ".cache"
    folder = pathlib.Path(base) / "zirkoshe/kernels"
    folder.mkdir(parents=True, exist_ok=True)
    return folder


def run(*words: Union[str, pathlib.Path], **options: object) -> str:
    """The output of a command, which must succeed."""
    ran = subprocess.run(list(map(str, words)), stdout=subprocess.PIPE, stderr=subprocess.STDOUT, text=True, **options)  # type: ignore[call-overload]
    if ran.returncode != 0:
        raise Lacking(f"{' '.join(map(str, words[:3]))} ended with status {ran.returncode}:\n{ran.stdout[-2000:]}")
    return str(ran.stdout)


def require_programs(names: Iterable[str] = tuple(PROGRAMS)) -> None:
    """Raises `Lacking`, with the packages of Debian, if a program is missing."""
    packages = {PROGRAMS[name] for name in names if find_program(name) is None}
    if not HEADERS.exists():
        packages.add("libdrm-dev")
    if packages:
        raise Missing(f"programs are missing: install the Debian packages {' '.join(sorted(packages))}")


def find_program(name: str) -> Optional[str]:
    """The path of a program, which may be one of the administrator's."""
    return shutil.which(name, path=f"{os.environ.get('PATH', '')}:/usr/sbin:/sbin")


def kept_kernels() -> Dict[str, Kernel]:
    """The kernels that are in the cache, by their series."""
    found = {}
    for series in SERIES:
        mark = cache() / series / "release"
        if mark.exists():
            release, version = mark.read_text().split()
            found[series] = Kernel(series, release, version, cache() / series)
    return found


def apt_options() -> List[str]:
    """Lists and packages of apt in the cache, of Debian's suites alone."""
    folder = cache() / "apt"
    for part in ("state/lists/partial", "cache/archives/partial"):
        (folder / part).mkdir(parents=True, exist_ok=True)
    lines = [f"deb [signed-by={KEYRING}] {place} {suite} main\n" for place, suite in SUITES]
    (folder / "sources.list").write_text("".join(lines))
    settings = {
        "Dir::Etc::sourcelist": folder / "sources.list",
        "Dir::Etc::sourceparts": "-",
        "Dir::State": folder / "state",
        "Dir::State::status": "/var/lib/dpkg/status",
        "Dir::Cache": folder / "cache",
        "APT::Sandbox::User": "",
    }
    return [word for name, value in settings.items() for word in ("-o", f"{name}={value}")]


def latest_image(series: str, options: List[str]) -> Tuple[str, str]:
    """The release and the version of the newest image of a series."""
    shown = run("apt-cache", *options, "show", "linux-image-amd64")
    found: List[Tuple[str, str]] = re.findall(
        rf"^Depends: linux-image-({re.escape(series)}\.\S+) \(= (\S+)\)", shown, re.M
    )
    if not found:
        raise Lacking(f"apt-cache lists no kernel of the series {series}: run apt-get update")
    return max(found, key=lambda row: [int(part) for part in re.findall(r"\d+", row[1])])


def packages_of(series: str, release: str, options: List[str]) -> List[str]:
    """The packages of an image, its headers, and the programs that build a module."""
    shown = run("apt-cache", *options, "show", f"linux-headers-{release}")
    depends = re.search(r"^Depends: (.*)$", shown, re.M)
    more = re.findall(r"linux-headers-\S+-common|linux-kbuild-\S+", depends[1] if depends else "")
    return [f"linux-image-{release}", f"linux-headers-{release}", *(word.rstrip(",") for word in more)]


def fetch(series: str) -> Kernel:
    """Fetches and unpacks the newest kernel of a series."""
    options = apt_options()
    run("apt-get", *options, "update")
    release, version = latest_image(series, options)
    folder = cache() / series
    shutil.rmtree(folder, ignore_errors=True)
    folder.mkdir()
    with tempfile.TemporaryDirectory(dir=cache()) as room:
        run("apt-get", *options, "download", *packages_of(series, release, options), cwd=room)
        for package in sorted(pathlib.Path(room).glob("*.deb")):
            run("dpkg-deb", "-x", package, folder)
    prepare(folder, release)
    (folder / "release").write_text(f"{release} {version}\n")
    return Kernel(series, release, version, folder)


def prepare(folder: pathlib.Path, release: str) -> None:
    """Lets the unpacked headers and modules be used where they are."""
    makefile = folder / "usr/src" / f"linux-headers-{release}" / "Makefile"
    makefile.write_text(makefile.read_text().replace("include /usr/src/", f"include {folder}/usr/src/"))
    if not (folder / "lib").exists():
        (folder / "lib").symlink_to("usr/lib")
    run(find_program("depmod") or "depmod", "-b", folder, release)


def kernel_of(series: str, fetches: bool = True) -> Kernel:
    """The kernel of a series, fetched if the cache does not have it."""
    with open(cache() / "lock", "w", encoding="ascii") as lock:
        fcntl.flock(lock, fcntl.LOCK_EX)
        kept = kept_kernels().get(series)
        if kept is not None:
            return kept
        if not fetches:
            raise Missing(f"the cache {cache()} has no kernel: run tools/beside-kernel, which fetches one")
        return fetch(series)


def mark_of_sources() -> str:
    """A mark of what the module and drm_script are made of."""
    files = sorted([*SOURCES.glob("*.[ch]"), *SOURCES.glob("module/*")])
    return hashlib.sha256(b"".join(file.read_bytes() for file in files)).hexdigest()[:16]


def remove_older(built: pathlib.Path, pattern: str) -> None:
    """Removes what was built from earlier sources."""
    for path in built.parent.glob(pattern):
        if path != built:
            path.unlink()


def build_module(kernel: Kernel) -> pathlib.Path:
    """The module, built against the headers of a kernel."""
    built = kernel.folder / f"zirkoshe_card-{mark_of_sources()}.ko"
    if not built.exists():
        with tempfile.TemporaryDirectory(prefix="drm-module-") as room:
            copy = pathlib.Path(room) / "kernel"
            shutil.copytree(SOURCES, copy)
            settings = [f"M={copy}/module", "CC=gcc", "CONFIG_DEBUG_INFO_BTF_MODULES="]
            run("make", "-C", kernel.headers, *settings, "modules")
            shutil.copy(copy / "module/zirkoshe_card.ko", built)
        remove_older(built, "zirkoshe_card-*.ko")
    return built


def build_runner() -> pathlib.Path:
    """The program drm_script, without shared libraries."""
    built = cache() / f"drm_script-{mark_of_sources()}"
    if not built.exists():
        run(*COMPILE, "-static", "-o", built, *sorted(SOURCES.glob("*.c")))
        remove_older(built, "drm_script-*")
    return built


def modules_of(kernel: Kernel) -> Iterator[Tuple[str, bytes]]:
    """The modules of a kernel in the order in which they are loaded."""
    seen = set()
    program = find_program("modprobe") or "modprobe"
    for module in MODULES:
        shown = run(program, "-d", kernel.folder, "-S", kernel.release, "--show-depends", module)
        for path in re.findall(r"^insmod (\S+)", shown, re.M):
            if path not in seen:
                seen.add(path)
                data = pathlib.Path(path).read_bytes()
                yield pathlib.Path(path).name.split(".ko")[0], lzma.decompress(data) if path.endswith(".xz") else data


def parameter_of(topology: str) -> str:
    """The lines of a topology file as the module's parameter."""
    lines = [line.split() for line in topology.splitlines() if line.strip() and not line.startswith("#")]
    return ",".join(f"{word}:{'+'.join(numbers)}" for word, *numbers in lines)


def make_initramfs(kernel: Kernel, load: Load, room: pathlib.Path) -> pathlib.Path:
    """An archive with busybox, the modules, drm_script, the scripts of each device, and a program."""
    root = room / "root"
    for name in ("bin", "dev", "proc", "sys", "modules", "scripts", "topologies"):
        (root / name).mkdir(parents=True)
    shutil.copy(find_program("busybox") or "busybox", root / "bin/busybox")
    shutil.copy(build_runner(), root / "bin/drm_script")
    loaded = [*modules_of(kernel), ("zirkoshe_card", build_module(kernel).read_bytes())]
    for place, (name, data) in enumerate(loaded):
        (root / "modules" / f"{place:02}-{name}.ko").write_bytes(data)
    for driver, text in load.scripts.items():
        (root / "scripts" / driver).write_text(text)
    for name, topology in load.topologies.items():
        (root / "topologies" / name).write_text(parameter_of(topology))
    if load.program is not None:
        shutil.copy(load.program.path, root / "bin/program")
    (root / "init").write_text(INIT.replace("TOPOLOGY", load.program.topology if load.program else ""))
    (root / "init").chmod(0o755)
    names = "".join(f"{path.relative_to(root)}\n" for path in sorted(root.rglob("*")))
    packed = subprocess.run(
        ["cpio", "-o", "-H", "newc", "--quiet"], cwd=root, input=names.encode(), stdout=subprocess.PIPE, check=True
    )
    archive = room / "initramfs"
    archive.write_bytes(gzip.compress(packed.stdout, 1))
    return archive


def emulator(kernel: Kernel, archive: pathlib.Path, room: pathlib.Path) -> List[str]:
    """The command that boots a kernel. Its first serial port is the console, its second one has the answers."""
    append = "console=ttyS0 panic=-1 oops=panic no_timer_check edd=off quiet"
    words = ["qemu-system-x86_64", "-accel", "tcg", "-m", "768", "-nographic", "-nodefaults", "-vga", "none"]
    words += ["-device", "virtio-gpu-pci,max_outputs=2", "-no-reboot", "-append", append]
    words += ["-kernel", str(kernel.image), "-initrd", str(archive)]
    return [*words, "-serial", f"file:{room}/console", "-serial", f"file:{room}/answers"]


def read_boot(text: str) -> Optional[Booted]:
    """What a boot printed, or nothing if it did not reach its end."""
    lines = text.replace("\r", "").splitlines()
    if not lines or lines[-1] != "end":
        return None
    booted = Booted(lines[0].partition(" ")[2], {}, {})
    part: List[str] = []
    for line in lines[1:-1]:
        kind, _, driver = line.partition(" ")
        if kind == "device":
            part = []
        elif kind == "scripts":
            booted.topologies[driver] = "".join(f"{row}\n" for row in part)
            part = booted.answers[driver] = []
        else:
            part.append(line)
    return booted


def attempt(kernel: Kernel, load: Load, seconds: int) -> Tuple[Optional[Booted], str]:
    """Boots a kernel once. Returns what it printed, or nothing and why it did not reach its end."""
    with tempfile.TemporaryDirectory(prefix="drm-kernel-") as name:
        room = pathlib.Path(name)
        command = emulator(kernel, make_initramfs(kernel, load, room), room)
        try:
            subprocess.run(command, timeout=seconds, stdin=subprocess.DEVNULL, check=True)
        except subprocess.TimeoutExpired:
            return None, ""
        console = (room / "console").read_text(errors="replace")
        return read_boot((room / "answers").read_text(errors="replace")), console[-CONSOLE:]


def boot(kernel: Kernel, load: Load, seconds: int = SECONDS) -> Booted:
    """Boots a kernel, and runs all of the load. A boot that fails is tried again."""
    reasons = []
    for _ in range(BOOTS):
        booted, reason = attempt(kernel, load, seconds)
        if booted is not None:
            return booted
        reasons.append(reason)
    if any(reasons):
        raise Lacking(f"{kernel.release} did not run all scripts; its console ended with\n{max(reasons)}")
    raise Slow(f"{kernel.release} did not boot within {seconds} s in {BOOTS} attempts")
