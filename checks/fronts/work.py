"""The folder of a run: a copy of what the page names, with ports and folders of its own, and the page's commands in it."""
import contextlib
import os
import pathlib
import pwd
import re
import shutil
import socket
import subprocess
import time

TOP = pathlib.Path(__file__).resolve().parent.parent.parent
# The command, or the file, by which a package of the page is known to be there.
COMMANDS = {"apache2": "apache2", "apache2-utils": "htpasswd", "caddy": "caddy", "curl": "curl", "git": "git",
            "libnginx-mod-http-headers-more-filter": "/usr/lib/nginx/modules/ngx_http_headers_more_filter_module.so",
            "nginx-light": "nginx", "openbsd-inetd": "inetd", "openssl": "openssl", "rclone": "rclone", "socat": "socat",
            "systemd": "systemd-socket-activate", "wget": "wget", "xinetd": "xinetd"}
PORTS = ("8080", "8081", "8082", "8083", "8084", "8086", "8087", "8443", "8444", "8445")
# Commands that change the machine itself.
LEFT_OUT = ("useradd ",)


class Stopped(Exception):
    """Ends what a quiet tally is given, at the first failure."""


class Tally:
    """What held, what failed, and what was left out. A quiet one says nothing, and stops at the first failure."""

    def __init__(self, quiet=False):
        self.held, self.failed, self.left_out, self.quiet = 0, [], [], quiet

    def __call__(self, what, holds, found=""):
        if holds:
            self.held += 1
        else:
            self.failed.append(f"{what}: {found}" if found != "" else what)
            if self.quiet:
                raise Stopped(what)
            print(f"  FAILED: {self.failed[-1]}", flush=True)

    def leave_out(self, what):
        self.left_out.append(what)




def free_port(taken=()):
    while True:
        with socket.socket() as it:
            it.bind(("127.0.0.1", 0))
            port = str(it.getsockname()[1])
        if port not in taken:
            return port


class Work:
    """A copy of what the page names, with ports and folders of its own. An edit is a file, a text that stands there, and
    what stands in place of each of its places in the copy."""

    def __init__(self, folder, edit=None):
        self.at = pathlib.Path(folder)
        self.edit = edit
        # What each ./serve is given besides: words, and the environment.
        self.words, self.env = (), {}
        self.at.chmod(0o755)
        self.ports = {}
        for port in PORTS:
            self.ports[port] = free_port(self.ports.values())
        # Where it may the run takes another user.
        of_user = pwd.getpwnam("nobody") if os.geteuid() == 0 else pwd.getpwuid(os.geteuid())
        self.user, self.group = of_user.pw_name, of_user.pw_gid
        for name in ("serve", "davserve", "README.md", "crates.txt"):
            shutil.copy2(TOP / name, self.at / name)
        (self.at / "serve").write_text(self.edited("serve"))
        for name in ("demo", "first"):
            shutil.copytree(TOP / "demo", self.at / name)
        (self.at / "crates").symlink_to(TOP / "crates")
        for name in ("bin", "units", "tmp", "deploy"):
            (self.at / name).mkdir()
        for file in filter(pathlib.Path.is_file, (TOP / "deploy").iterdir()):
            shutil.copymode(file, self.write(f"deploy/{file.name}", self.own(self.edited(f"deploy/{file.name}"))))

    def edited(self, name):
        text = (TOP / name).read_text()
        if self.edit is None or self.edit[0] != name:
            return text
        _, old, new = self.edit
        if old not in text:
            raise ValueError(f"{name} has no {old!r}")
        return text.replace(old, new)

    def write(self, name, text):
        (self.at / name).write_text(text)
        return self.at / name

    def own(self, text):
        """The text with the run's own ports, folders and user."""
        places = {"/usr/local/bin": "bin", "/srv/dav": "dav", "/etc/systemd/system": "units", "/tmp/": "tmp/"}
        users = {"-o davserve -g davserve": f"-o {self.user} -g {self.group}", "chown -R davserve:": f"chown -R {self.user}:",
                 " davserve /": f" {self.user} /", "user        = davserve": f"user        = {self.user}"}
        own = {**self.ports, **{there: f"{self.at}/{here}" for there, here in places.items()}}
        words = "|".join([rf"\b{it}\b" for it in self.ports] + list(places))
        for there, here in users.items():
            text = text.replace(there, here)
        return re.sub(words, lambda it: own[it[0]], text)

    def refresh(self):
        """The folders as they are at first."""
        for name in ("demo", "dav"):
            if (self.at / name).exists():
                subprocess.run(["rm", "-rf", self.at / name], check=True)
                subprocess.run(["cp", "-rp", self.at / "first", self.at / name], check=True)
                if name == "dav":
                    subprocess.run(["chown", "-R", f"{self.user}:", self.at / name], check=True)




def sections():
    """The headings of the page with their blocks of commands, each a list of lines."""
    found, heading, block = {}, None, None
    for line in (TOP / "docs/SERVING.md").read_text().splitlines():
        if line.startswith("## "):
            heading = line[3:]
        elif line == "```sh":
            block = []
        elif line == "```" and block is not None:
            found.setdefault(heading, []).append(block)
            block = None
        elif block is not None:
            block.append(line)
    return found


def lacking(blocks):
    """The packages that the commands name and that aren't there."""
    names = [name for block in blocks for line in block if line.startswith("apt-get install ") for name in line.split()[2:]]
    return [name for name in names if not (shutil.which(COMMANDS[name]) or os.path.exists(COMMANDS[name]))]


class Shell:
    """A bash to which the commands of a section are given one after the other."""

    def __init__(self, work):
        self.work = work
        self.log = open(work.at / "tmp/log", "wb")
        env = {**os.environ, "GIT_CONFIG_GLOBAL": "/dev/null"}
        self.bash = subprocess.Popen(["bash"], cwd=work.at, env=env, stdin=subprocess.PIPE, stdout=subprocess.PIPE,
                                     stderr=self.log, start_new_session=True, text=True)

    def run(self, line):
        """Gives a line of the page, and returns its status and its output."""
        self.bash.stdin.write(f"{self.work.own(line)}\nprintf '\\n== %s\\n' \"$?\"\n")
        self.bash.stdin.flush()
        said = ""
        for it in self.bash.stdout:
            if it.startswith("== "):
                return int(it[3:]), said.strip()
            said += it
        raise EOFError(line)

    def end(self):
        """Ends the shell, and what it started and didn't end. The log tells why something failed."""
        with contextlib.suppress(OSError):
            os.killpg(self.bash.pid, 15)
        with contextlib.suppress(OSError):
            self.bash.stdin.close()
        self.bash.wait(10)
        self.log.close()


def run_block(shell, block, tally):
    """Runs the commands of a block. Of `curl` with a status behind it the status is compared."""
    for line in block:
        command, _, wanted = line.partition("#")
        command, wanted = command.strip(), wanted.strip()
        if command.startswith("apt-get ") or not command:
            continue
        if command.startswith(LEFT_OUT):
            tally.leave_out(command)
            continue
        if re.fullmatch(r"\d{3}", wanted):
            status, said = shell.run(command.replace("curl ", "curl -s -o /dev/null -w '%{http_code}' ", 1))
            tally(line, said == wanted, f"status {said}, curl ended with {status}")
        else:
            status, said = shell.run(command)
            tally(command, status == 0, f"ended with {status}")


def listens(port):
    with contextlib.suppress(OSError), socket.create_connection(("127.0.0.1", int(port)), 5):
        return True
    return False


def within(seconds, holds):
    """Whether it holds at some time within so many seconds."""
    end = time.monotonic() + seconds
    while not holds():
        if time.monotonic() > end:
            return False
        time.sleep(0.05)
    return True




class Served:
    """A run of ./serve over a folder, with the lines that it says."""

    def __init__(self, work, root, *words, port=None, env=None, at=None):
        self.port = free_port() if port is None else port
        self.log = work.at / f"tmp/said-{self.port}"
        with open(self.log, "wb") as said:
            line = [(at or work.at) / "serve", root, *filter(None, [self.port]), *words, *work.words]
            self.run = subprocess.Popen(line, cwd=work.at, stdin=subprocess.DEVNULL,
                                        env={**os.environ, **work.env, **(env or {})}, stderr=said, start_new_session=True)
        self.told = within(20, lambda: b"http://" in self.log.read_bytes() or self.run.poll() is not None)

    def said(self):
        return self.log.read_text(errors="replace")

    def __enter__(self):
        return self

    def __exit__(self, *_):
        with contextlib.suppress(OSError):
            os.killpg(self.run.pid, 15)
        self.run.wait(10)


