"""The package: it is installed, upgraded and purged beside FRR, in a copy of this system that is thrown away."""

import subprocess

from spaces import ROOT
from suite import Failed, same

# What a shell does in a name space of mounts, with a folder for the copy and two packages: what it prints is compared.
TRIAL = """set -e
mount -t tmpfs none "$1"
mkdir "$1/upper" "$1/work" "$1/system"
mount -t overlay none -o "lowerdir=/,upperdir=$1/upper,workdir=$1/work" "$1/system"
for folder in dev proc; do mount --rbind "/$folder" "$1/system/$folder"; done
mkdir "$1/system/packages"
cp "$2" "$1/system/packages/1.deb"
cp "$3" "$1/system/packages/2.deb"
within() { chroot "$1/system" env PATH=/usr/sbin:/usr/bin:/sbin:/bin sh -c "$2"; }
within "$1" 'dpkg -i /packages/1.deb > /dev/null; ripngd --version; ripngd-links --help | head -n 1; dpkg -V frr ripngd'
within "$1" 'test -x /usr/share/doc/ripngd/companion/bird.sh; ls /usr/share/man/man8/*ripngd*.8.gz /usr/share/doc/ripngd/docs/lab.html'
within "$1" 'for unit in ripngd ripngd-links; do sed -n "s/^ExecStart=\\([^ ]*\\).*/\\1/p" /usr/lib/systemd/system/$unit@.service; done'
within "$1" 'ripngd-links check --unproved /etc/ripngd-links/sample.toml 2> /dev/null'
within "$1" 'zcat /usr/share/doc/ripngd/changelog.gz | sed -n "1s/(.*)//p; 3p; \$s/ -- .*/--/p"; cat /var/lib/dpkg/info/ripngd.conffiles'
within "$1" 'grep -c "systemctl try-restart .*ripngd-links@" /var/lib/dpkg/info/ripngd.postinst'
within "$1" 'dpkg -i /packages/2.deb > /dev/null; dpkg-query -W -f "\\${Version}\\n" ripngd; touch /etc/ripngd-links/mine.toml'
within "$1" 'dpkg -P ripngd > /dev/null 2>&1; dpkg -V frr; ls /usr/lib/frr/ripngd; rm -r /packages'
cd "$1/upper"
find . -name '*ripng*' -o -name '*.toml'
"""


def made(folder, program, is_unproved):
    """The package of a program."""
    words = ["make", "-s", "deb", f"PROGRAM={program}", f"DIST={folder}", *["UNPROVED=1"] * is_unproved]
    done = subprocess.run(words, cwd=ROOT, capture_output=True, text=True, check=False)
    if done.returncode:
        raise Failed(f"make deb: {done.stderr}")
    return next(folder.glob("ripngd_*_amd64.deb"))


def of_version(package, version):
    """The same package as another version."""
    folder, other = package.parent / "other", package.parent / "other.deb"
    subprocess.run(["dpkg-deb", "-R", package, folder], check=True)
    control = folder / "DEBIAN/control"
    control.write_text("".join(f"Version: {version}\n" if "Version:" in line else line for line in control.open()))
    subprocess.run(["dpkg-deb", "-Znone", "-b", folder, other], check=True, stdout=subprocess.DEVNULL)
    return other


def a_package(net, program):
    """Beside FRR's files it puts its own, and takes all of them away but the operator's table."""
    version = subprocess.run([program, "--version"], capture_output=True, text=True, check=True).stdout
    is_proved = subprocess.run([ROOT / "tools/proved.py", "check", program], capture_output=True, check=False).returncode == 0
    first = made(net.folder, program, not is_proved)
    trial = net.folder / "trial"
    trial.mkdir()
    words = ["unshare", "-m", "sh", "-c", TRIAL, "trial", trial, first, of_version(first, "9.9")]
    done = subprocess.run(words, capture_output=True, text=True, check=False)
    if done.returncode:
        raise Failed(f"the trial: {done.stderr}")
    pages = [f"/usr/share/man/man8/{name}.8.gz" for name in ("frr-ripngd", "ripngd-links", "ripngd")]
    wanted = [version.strip(), "usage: ripngd-links [-h] [--no-kernel] [-d] [--unproved] CONFIG"]
    wanted += ["/usr/share/doc/ripngd/docs/lab.html", *pages, "/usr/bin/ripngd", "/usr/bin/ripngd-links", "ok links 2 stubs 1 prefixes 0"]
    first = next(line for line in (ROOT / "docs/CHANGELOG.md").read_text().splitlines() if line.startswith("- "))
    wanted += ["ripngd  unstable; urgency=medium", f"  * {first[2:]}", "--", "/etc/ripngd-links/sample.toml", "1", "9.9"]
    wanted += ["/usr/lib/frr/ripngd", "./etc/ripngd-links", "./etc/ripngd-links/mine.toml"]
    same("what the trial prints", done.stdout.splitlines(), wanted)
