"""The commands of wasmkit on bytes, in either profile: by its built program, and by its library for C in the same process."""
import ctypes
import os
import subprocess
import tempfile

SECONDS = 20
PARTS = ["headers", "details", "code", "uses"]


class Wrong(Exception):
    """A case that does not hold."""


class Program:
    """Starts the built program for each command, on files in a folder of its own."""

    def __init__(self, path):
        self.path, self.extended = path, False
        self.folder = tempfile.TemporaryDirectory(prefix="fuzz-")

    def at(self, name):
        return f"{self.folder.name}/{name}"

    def put(self, name, data):
        with open(self.at(name), "wb") as file:
            file.write(data)

    def run(self, *words):
        """The status and the standard output of a command, which says nothing on standard error."""
        how = {"cwd": self.folder.name, "capture_output": True, "stdin": subprocess.DEVNULL, "timeout": SECONDS}
        done = subprocess.run([self.path, *words], **how)
        if done.stderr or done.returncode not in (0, 1, 2):
            raise Wrong(f"{' '.join(words)}: status {done.returncode}, {done.stderr!r}")
        return done.returncode, done.stdout.decode()

    def run_in_profile(self, command, *words):
        return self.run(command, *(["--extended"] if self.extended else []), *words)

    def made(self, *words):
        """The status and the standard output of a command that makes OUT, and the bytes there, or nothing where it is not made."""
        status, text = self.run_in_profile(*words, "out.wasm")
        if not os.path.exists(self.at("out.wasm")):
            return status, text, None
        with open(self.at("out.wasm"), "rb") as file:
            data = file.read()
        os.remove(self.at("out.wasm"))
        return status, text, data

    def validate(self, data):
        self.put("in.wasm", data)
        return self.run_in_profile("validate", "in.wasm")

    def sections(self, data):
        self.put("in.wasm", data)
        return self.run("sections", "in.wasm")

    def objdump(self, data, parts):
        self.put("in.wasm", data)
        return self.run_in_profile("objdump", *(f"--{part}" for part in parts), "in.wasm")

    def strip(self, data):
        self.put("in.wasm", data)
        return self.made("strip", "in.wasm")

    def edit(self, data, script, keep_valid):
        self.put("in.wasm", data)
        self.put("script", script)
        return self.made("edit", *(["--keep-valid"] if keep_valid else []), "in.wasm", "script")


class Library:
    """Calls the library, whose calls `include/wasmkit.h` lays out."""

    ROOM = 1 << 16
    TOO_SMALL = 7
    # What the program's statuses are for the results of calls: _OK, _INVALID, _MALFORMED; and of `edit` _REFUSED.
    STATUSES = {0: 0, 1: 1, 2: 2, 4: 1}

    def __init__(self, path):
        self.calls, self.extended = ctypes.CDLL(path), False
        self.room = [self.ROOM, self.ROOM]
        # One validator judges the modules of all cases.
        self.validator = ctypes.c_void_p()
        if self.calls.wk_validator_new(ctypes.byref(self.validator)):
            raise Wrong("a validator: no memory")

    @property
    def profile(self):
        return int(self.extended)

    def call(self, name, *arguments, outputs):
        """The status of a call, and the bytes of each of its outputs. Where one has no room, the call is made again with what it asks."""
        function = getattr(self.calls, f"wk_{name}")
        function.restype = ctypes.c_uint32
        given = [word for argument in arguments for word in words_of(argument)]
        for _ in range(2):
            buffers = [ctypes.create_string_buffer(room) for room in self.room[:outputs]]
            lengths = [ctypes.c_size_t(0) for _ in buffers]
            taken = [word for buffer, length in zip(buffers, lengths) for word in (buffer, ctypes.c_size_t(len(buffer)), ctypes.byref(length))]
            result = function(*given, *taken)
            if result != self.TOO_SMALL:
                break
            self.room[:outputs] = [max(room, length.value) for room, length in zip(self.room, lengths)]
        if result not in self.STATUSES:
            raise Wrong(f"{name}: result {result}")
        return self.STATUSES[result], [ctypes.string_at(buffer, length.value) for buffer, length in zip(buffers, lengths)]

    def text(self, name, *arguments):
        status, (text,) = self.call(name, *arguments, outputs=1)
        return status, text.decode()

    def made(self, name, *arguments):
        """The status, the text and the module of a call that makes one, or nothing where the bytes spelled none."""
        status, (data, text) = self.call(name, *arguments, outputs=2)
        if status == 2 and data:
            raise Wrong(f"{name}: malformed, and yet {len(data)} bytes")
        return status, text.decode(), None if status == 2 else data

    def validate(self, data):
        told = self.text("ffi_validate", data, self.profile)
        kept = self.text("validator_judge", self.validator, data, self.profile)
        if told != kept:
            raise Wrong(f"validate: {told}, and by a validator that judged before {kept}")
        return told

    def sections(self, data):
        return self.text("ffi_sections", data)

    def objdump(self, data, parts):
        """The parts one behind the other, as the program prints them; of bytes that are no module their fault, which each part tells."""
        told = [self.text("ffi_list", data, self.profile, PARTS.index(part)) for part in parts]
        if any(status for status, _ in told):
            if len(set(told)) != 1:
                raise Wrong(f"parts of a listing differ in their fault: {told}")
            return told[0]
        return 0, "".join(text for _, text in told)

    def strip(self, data):
        return self.made("ffi_strip", data, self.profile, b"")

    def edit(self, data, script, keep_valid):
        return self.made("ffi_edit", data, script, self.profile, int(keep_valid))


def words_of(argument):
    """What a call takes for an argument: a number, a validator, or bytes and their length."""
    if isinstance(argument, ctypes.c_void_p):
        return [argument]
    if isinstance(argument, int):
        return [ctypes.c_uint32(argument)]
    return [ctypes.c_char_p(argument), ctypes.c_size_t(len(argument))]
