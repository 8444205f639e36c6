"""A folder with a module and a script, in which the program is run, and what it says there."""
import os
import resource
import shutil
import signal
import subprocess

HEADER = b"\0asm\1\0\0\0"
TYPE = b"\x01\x04\x01\x60\x00\x00"
CUSTOM = b"\x00\x03\x01\x63\xaa"
OLD = b"old"
# A custom section that no pipe holds, and no file of a small disk.
LARGE = b"\x00\x82\x80\x10\x01l" + b"\xaa" * 262_144
SECONDS = 20
NOBODY = 65534


class Folder:
    """A folder with a module, a script that appends a type, and the program run in it."""

    def __init__(self, program, path):
        self.program, self.path = program, path
        self.write("in.wasm", HEADER + CUSTOM)
        self.write("script", b"type - -\n")

    def at(self, name):
        return os.path.join(self.path, name)

    def write(self, name, data):
        with open(self.at(name), "wb") as file:
            file.write(data)

    def read(self, name):
        with open(self.at(name), "rb") as file:
            return file.read()

    def names(self):
        return sorted(os.listdir(self.path))

    def run(self, *words, stdout=subprocess.PIPE, program=None, **how):
        """The status, the standard output and the standard error of a command line."""
        streams = {"stdin": subprocess.DEVNULL, "stdout": stdout, "stderr": subprocess.PIPE}
        done = subprocess.run([program or self.program, *words], cwd=self.path, timeout=SECONDS, **streams, **how)
        return done.returncode, (done.stdout or b"").decode("latin-1"), done.stderr.decode()

    def begin(self, *words):
        """A command line that runs on."""
        streams = {"stdin": subprocess.DEVNULL, "stdout": subprocess.PIPE, "stderr": subprocess.PIPE}
        return subprocess.Popen([self.program, *words], cwd=self.path, **streams)

    def run_as_other(self, *words):
        """The same of a user who is not root: the one who runs this test, or `nobody`, who is given the folder."""
        if os.geteuid() != 0:
            return self.run(*words)
        program = self.at("program")
        shutil.copy(self.program, program)
        for path in (self.path, program):
            os.chmod(path, 0o755)
        os.chown(self.path, NOBODY, NOBODY)
        answer = self.run(*words, program=program, user=NOBODY, group=NOBODY, extra_groups=[])
        os.remove(program)
        return answer

    def run_mounted(self, mounts, script):
        """The same of a shell script in which `$0` is the program, after commands that mount something, which goes with the script. It is None
        where the machine lets a test mount nothing."""
        own = ["unshare", "--mount"] if os.geteuid() == 0 else ["unshare", "--map-root-user", "--mount"]
        if not shutil.which("unshare") or subprocess.run([*own, "sh", "-c", mounts], cwd=self.path, capture_output=True).returncode:
            print(f"passed over, since nothing can be mounted here: {mounts}")
            return None
        words = [*own, "sh", "-c", f"{mounts} && {script}", self.program]
        ran = subprocess.run(words, cwd=self.path, capture_output=True, timeout=SECONDS)
        return ran.returncode, ran.stdout.decode("latin-1"), ran.stderr.decode()

    def edit(self, out, **how):
        return self.run("edit", "in.wasm", "script", out, **how)


EDITED = HEADER + CUSTOM + TYPE
DONE = (0, "1 ok\nvalid\n", "")


def unwritten(name):
    return (4, "", f"cannot write {name}\n")


def unread(name):
    return (4, "", f"cannot read {name}\n")


def few_bytes():
    """Lets no file grow past four bytes."""
    signal.signal(signal.SIGXFSZ, signal.SIG_IGN)
    resource.setrlimit(resource.RLIMIT_FSIZE, (4, 4))
