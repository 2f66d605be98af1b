#!/usr/bin/env python3
"""Tests in a root that has Debian 12 and the Debian package alone: a compositor, and the image of the container file.

What it tests: only if ZIRKOSHE_DEBIAN_ROOT names a root that `tests/debian_root` made: `weston` on both outputs,
from the Debian package; the image of the container file, built from the root.

    ZIRKOSHE_DEBIAN_ROOT=FOLDER tests/test_roots.py

`tests/debian_root FOLDER` makes the root, which takes some minutes. Without one the tests are skipped. The last line is
`N passed, M failed`. Standard library only.
"""
import os
import pathlib
import re
import sys

sys.dont_write_bytecode = True
from support import REPOSITORY, FolderCase, Skipped, expect, run, run_program, run_tests, want_program  # noqa: E402

SCRIPTS = sorted((REPOSITORY / "examples/tutorial").glob("*.script"))

# weston as docs/LIBDRM.md starts it, on both outputs: how long that takes, and then frames for five seconds
WESTON = """
cd /tmp
export XDG_RUNTIME_DIR=/tmp/run BEGUN=$(date +%s.%N)
mkdir -m 700 run
cat > wait.py << 'END'
import os, time
from zirkoshe.audit import read_audit
while {row.mode_object for row in read_audit(os.environ["DRM_SERVER_ROOT"]).shown} < {1, 2}:
    time.sleep(0.1)
print("both outputs after %.1f s" % (time.time() - float(os.environ["BEGUN"])))
END
cat > show.sh << 'END'
weston --backend=drm-backend.so --use-pixman --drm-device=card0 --seat=seat9 --continue-without-input --socket=shown > log 2>&1 &
weston=$!
python3 wait.py
WAYLAND_DISPLAY=shown timeout 5 weston-presentation-shm > frames
kill $weston
wait $weston
END
topology=/usr/share/doc/zirkoshe/examples/topologies/laptop.topology
zirkoshe test --libdrm --udev --seat seat9 --topology $topology --journal journal sh show.sh
echo "status $?"
for crtc in 1 2; do echo "CRTC $crtc: $(grep -c "setcrtc $crtc [1-9].* done" journal)"; done
"""


def want_root():
    """The root, or the test is skipped."""
    root = os.environ.get("ZIRKOSHE_DEBIAN_ROOT", "")
    if not (pathlib.Path(root) / "usr/bin/zirkoshe").is_symlink():
        raise Skipped("ZIRKOSHE_DEBIAN_ROOT names no root: tests/debian_root makes one (Debian package debootstrap)")
    return pathlib.Path(root)


def run_as_a_user(root, script):
    """Runs a script in the root as an ordinary user, who is root only there. The script cannot change the root."""
    want_program("bwrap")
    user = ["setpriv", "--reuid=65534", "--regid=65534", "--clear-groups"] if os.geteuid() == 0 else []
    places = [
        "--ro-bind",
        root,
        "/",
        "--dev",
        "/dev",
        "--proc",
        "/proc",
        "--ro-bind",
        "/sys",
        "/sys",
        "--tmpfs",
        "/tmp",
    ]
    words = [*places, "--unshare-user", "--uid", "0", "--gid", "0", "--clearenv", "--setenv", "PATH", "/usr/bin:/bin"]
    return run(*user, "bwrap", "--unshare-pid", "--die-with-parent", *words, "sh", "-c", script, timeout=120)


class RootsTests(FolderCase):
    """Runs programs in a Debian root."""

    def test_weston_lights_both_outputs(self):
        ran = run_as_a_user(want_root(), WESTON)
        print(ran.stdout.partition("\n")[0], flush=True)
        found = re.fullmatch(r"both outputs after [\d.]+ s\nstatus 0\nCRTC 1: (\d+)\nCRTC 2: (\d+)\n", ran.stdout)
        expect(f"what it prints: {ran.stdout}{ran.stderr}", found is not None, True)
        expect("frames of both outputs", min(map(int, found.groups())) > 1 and max(map(int, found.groups())) > 50, True)

    def test_image_of_the_container_file(self):
        """It is built from the root in place of the image from a registry, and checks scripts."""
        root = want_root()
        want_program("buildah")
        stored = ["--storage-driver", "vfs", "--root", self.folder / "stored", "--runroot", self.folder / "running"]

        def buildah(*words):
            ran = run("buildah", *stored, *words, timeout=300)
            expect(f"what buildah says of {words[0]}: {ran.stderr}", ran.returncode, 0)
            return ran.stdout

        base = buildah("from", "scratch").strip()
        kept = [f"./{name}" for name in sorted(os.listdir(root)) if name not in ("dev", "proc", "sys")]
        expect("status", run("tar", "-C", root, "-cf", self.folder / "root.tar", *kept, timeout=300).returncode, 0)
        buildah("add", base, self.folder / "root.tar", "/")
        buildah("commit", "--quiet", base, "localhost/debian:12")
        context = self.folder / "context"
        made = run(REPOSITORY / "tools/package", context, timeout=300).stdout.strip()
        title = os.path.basename(made)[: -len(".tar.gz")]
        words = [
            "--isolation",
            "chroot",
            "--from",
            "localhost/debian:12",
            "-t",
            "zirkoshe",
            f"--build-arg=ARCHIVE={title}",
        ]
        buildah("build", *words, "-f", REPOSITORY / "examples/ci/Containerfile", context)
        labels = buildah("inspect", "--type", "image", "--format", "{{.OCIv1.Config.Labels}}", "localhost/zirkoshe")
        expect("its title", f"org.opencontainers.image.title:{title}" in labels, True)
        image = buildah("from", "localhost/zirkoshe").strip()
        mounted = ["--isolation", "chroot", "--volume", f"{REPOSITORY / 'examples/tutorial'}:/work"]
        printed = buildah("run", *mounted, image, "--", "sh", "-c", "zirkoshe check *.script")
        expect("what it prints", printed, run_program("check", *SCRIPTS).stdout)


if __name__ == "__main__":
    sys.exit(run_tests())
