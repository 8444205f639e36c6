"""What becomes of OUT where its name leads elsewhere, where a file cannot take its place, and of what a killed run left beside it."""
import fcntl
import os
import resource
import signal
import stat
import subprocess
import tempfile

from folder import DONE, EDITED, HEADER, LARGE, NOBODY, OLD, SECONDS, TYPE, few_bytes, unwritten

STRIPPED = HEADER
REPORT = b"1 ok\nvalid\n"
USUAL = ["in.wasm", "out", "script"]


def mode_of(folder, name):
    return stat.S_IMODE(os.stat(folder.at(name)).st_mode)


def run_into(folder, words, how):
    """What a command line answers whose standard output goes to the file `out`, which is opened in this way."""
    with open(folder.at("out"), how) as file:
        return folder.run(*words, stdout=file)


def test_edit_to_the_file_of_standard_output(folder):
    """The report would be written over the module."""
    folder.write("out", OLD)
    os.link(folder.at("out"), folder.at("other"))
    os.symlink("out", folder.at("link"))
    os.symlink("/dev/stdout", folder.at("stream"))
    for name in ("/dev/stdout", "/dev/fd/1", "/proc/self/fd/1", "out", "./out", "other", "link", "stream"):
        for how, left in (("ab", OLD), ("wb", b"")):
            folder.write("out", OLD)
            yield (name, run_into(folder, ["edit", "in.wasm", "script", name], how)), (name, unwritten(name))
            yield (name, folder.read("out")), (name, left)
    yield folder.names(), ["in.wasm", "link", "other", "out", "script", "stream"]


def test_strip_to_the_file_of_standard_output(folder):
    """Nothing is printed, so the module goes where standard output goes on."""
    os.symlink("/dev/stdout", folder.at("stream"))
    for name in ("/dev/stdout", "/dev/fd/1", "out", "stream"):
        for how, left in (("ab", OLD + STRIPPED), ("wb", STRIPPED)):
            folder.write("out", OLD)
            yield (name, run_into(folder, ["strip", "in.wasm", name], how)), (name, (0, "", ""))
            yield (name, folder.read("out")), (name, left)
    group = f'{{ printf old; "{folder.program}" strip in.wasm /dev/stdout; printf old; }} >out'
    yield subprocess.run(["sh", "-c", group], cwd=folder.path).returncode, 0
    yield folder.read("out"), OLD + STRIPPED + OLD
    with open(folder.at("out"), "rb") as file:
        yield folder.run("strip", "in.wasm", "/dev/stdout", stdout=file), unwritten("/dev/stdout")


def test_standard_output_that_is_no_file(folder):
    """A pipe or a terminal takes the module and then the report."""
    both = (EDITED + REPORT).decode("latin-1")
    yield folder.edit("/dev/stdout"), (0, both, "")
    yield folder.run("strip", "in.wasm", "/dev/stdout"), (0, STRIPPED.decode("latin-1"), "")
    ours, theirs = os.openpty()
    yield folder.edit("/dev/stdout", stdout=theirs), (0, "", "")
    os.close(theirs)
    yield os.read(ours, 4096).endswith(b"1 ok\r\nvalid\r\n"), True
    os.close(ours)


def test_another_file_than_that_of_standard_output(folder):
    folder.write("report", OLD)
    with open(folder.at("report"), "ab") as file:
        yield folder.edit("out", stdout=file), (0, "", "")
    yield (folder.read("out"), folder.read("report")), (EDITED, OLD + REPORT)


def test_link(folder):
    """What the link leads to is replaced, in its own folder."""
    os.mkdir(folder.at("far"))
    folder.write("far/target", OLD)
    os.chmod(folder.at("far/target"), 0o640)
    old = os.stat(folder.at("far/target")).st_ino
    os.symlink("far/target", folder.at("out"))
    yield folder.edit("out"), DONE
    yield os.readlink(folder.at("out")), "far/target"
    yield folder.read("far/target"), EDITED
    yield mode_of(folder, "far/target"), 0o640
    yield os.stat(folder.at("far/target")).st_ino == old, False
    yield (folder.names(), os.listdir(folder.at("far"))), (["far", *USUAL], ["target"])


def test_link_on_a_full_disk(folder):
    folder.write("target", OLD)
    for name, target in (("out", "target"), ("new", "none")):
        os.symlink(target, folder.at(name))
        yield folder.edit(name, preexec_fn=few_bytes), unwritten(name)
        yield os.readlink(folder.at(name)), target
    yield folder.read("target"), OLD
    yield folder.names(), ["in.wasm", "new", "out", "script", "target"]


def test_link_to_a_small_disk(folder):
    folder.write("large", HEADER + LARGE)
    os.mkdir(folder.at("disk"))
    os.symlink("disk/out", folder.at("out"))
    mount = "mount -t tmpfs -o size=64k tmpfs disk && printf old >disk/out"
    answer = folder.run_mounted(mount, '"$0" edit large script out && exit; status=$?; cat disk/out; echo "" $(ls disk); exit $status')
    if answer:
        yield answer, (4, "old out\n", unwritten("out")[2])


def test_links_that_lead_on(folder):
    os.mkdir(folder.at("far"))
    for name, target in (("far/second", "../target"), ("first", "far/second"), ("lost", "none/target"), ("round", "round")):
        os.symlink(target, folder.at(name))
    yield folder.edit("first"), DONE
    yield folder.read("target"), EDITED
    yield folder.edit(folder.at("first")), DONE
    yield folder.edit("lost"), unwritten("lost")
    yield folder.edit("round"), unwritten("round")
    yield folder.run("validate", "round"), (4, "", "cannot read round\n")
    yield folder.run("validate", "first"), (0, "valid\n", "")
    yield folder.names(), ["far", "first", "in.wasm", "lost", "round", "script", "target"]


def test_links_of_the_machine(folder):
    """A link to one of /dev or /proc is followed to it, and that is written through."""
    for name, target in (("full", "/dev/full"), ("null", "/dev/null"), ("stream", "/dev/stdout")):
        os.symlink(target, folder.at(name))
    yield folder.edit("full"), unwritten("full")
    yield folder.edit("null"), DONE
    yield folder.edit("stream"), (0, (EDITED + REPORT).decode("latin-1"), "")
    folder.write("out", OLD)
    with open(folder.at("out"), "r+b") as file:
        for name in (f"/dev/fd/{file.fileno()}", f"/proc/self/fd/{file.fileno()}"):
            yield folder.edit(name, pass_fds=[file.fileno()]), DONE
            yield (os.fstat(file.fileno()).st_nlink, folder.read("out")), (1, EDITED)
    yield folder.names(), ["full", "in.wasm", "null", "out", "script", "stream"]


def test_link_that_lies_among_devices(folder):
    if not os.access("/dev/shm", os.W_OK):
        print("passed over, since nothing can be made in /dev/shm: a link that lies there")
        return
    folder.write("out", OLD)
    old = os.stat(folder.at("out")).st_ino
    with tempfile.TemporaryDirectory(dir="/dev/shm") as shared:
        os.symlink(folder.at("out"), f"{shared}/link")
        yield folder.edit(f"{shared}/link"), DONE
    yield (folder.read("out"), os.stat(folder.at("out")).st_ino), (EDITED, old)


def test_mounted_file(folder):
    """Nothing can be renamed onto it."""
    folder.write("out", b"")
    folder.write("other", OLD)
    answer = folder.run_mounted("mount --bind other out", '"$0" edit in.wasm script out')
    if answer:
        yield answer, DONE
        yield (folder.read("other"), folder.read("out")), (EDITED, b"")
        yield folder.names(), ["in.wasm", "other", "out", "script"]


def test_mounted_file_on_a_full_disk(folder):
    """The part does not come about, and the old file is as it was."""
    folder.write("large", HEADER + LARGE)
    folder.write("other", OLD)
    os.mkdir(folder.at("disk"))
    mounts = "mount -t tmpfs -o size=64k tmpfs disk && : >disk/out && mount --bind other disk/out"
    answer = folder.run_mounted(mounts, '"$0" edit large script disk/out && exit; status=$?; ls disk; exit $status')
    if answer:
        yield answer, (4, "out\n", unwritten("disk/out")[2])
        yield folder.read("other"), OLD


def test_anothers_file_in_a_sticky_folder(folder):
    """Who does not own it may write it, and may not rename onto it."""
    if os.geteuid() != 0:
        print("passed over, since there is no file of another user: a sticky folder")
        return
    os.mkdir(folder.at("sticky"))
    os.chmod(folder.at("sticky"), 0o1777)
    folder.write("sticky/out", OLD)
    os.chmod(folder.at("sticky/out"), 0o666)
    yield folder.run_as_other("edit", "in.wasm", "script", "sticky/out"), DONE
    yield folder.read("sticky/out"), EDITED
    yield os.stat(folder.at("sticky/out")).st_uid, 0
    yield os.listdir(folder.at("sticky")), ["out"]


def test_permissions_of_a_replaced_file(folder):
    """Those that have the file run as its owner or its group go, and the others stay."""
    for old, new in ((0o6755, 0o755), (0o4711, 0o711), (0o2770, 0o770), (0o602, 0o602), (0o666, 0o666)):
        folder.write("out", OLD)
        os.chmod(folder.at("out"), old)
        yield folder.edit("out"), DONE
        yield mode_of(folder, "out"), new
    for mask in (0o022, 0o077, 0):
        os.remove(folder.at("out"))
        yield folder.edit("out", umask=mask), DONE
        yield mode_of(folder, "out"), 0o666 & ~mask


def test_owner_of_a_replaced_file(folder):
    if os.geteuid() != 0:
        print("passed over, since there is no file of another user: the owner of a replaced file")
        return
    folder.write("out", OLD)
    os.chown(folder.at("out"), NOBODY, NOBODY)
    os.chmod(folder.at("out"), 0o4750)
    yield folder.edit("out"), DONE
    found = os.stat(folder.at("out"))
    yield (found.st_uid, found.st_gid, stat.S_IMODE(found.st_mode)), (NOBODY, NOBODY, 0o750)
    folder.write("other", OLD)
    os.chmod(folder.at("other"), 0o666)
    yield folder.run_as_other("edit", "in.wasm", "script", "other"), DONE
    yield (os.stat(folder.at("other")).st_uid, folder.read("other")), (NOBODY, EDITED)


def test_part_of_a_killed_run(folder):
    """The run is ended in the middle of writing. The next one uses the name of its part again."""
    few = lambda: resource.setrlimit(resource.RLIMIT_FSIZE, (4, 4))
    for mask in (0o022, 0o077):
        yield folder.edit("out", preexec_fn=few), (-signal.SIGXFSZ, "", "")
        yield folder.names(), ["in.wasm", "out.part0", "script"]
        yield mode_of(folder, "out.part0"), 0o200
        yield folder.edit("out", umask=mask), DONE
        yield (folder.read("out"), mode_of(folder, "out")), (EDITED, 0o666 & ~mask)
        yield folder.names(), USUAL
        os.remove(folder.at("out"))
    folder.write("out", OLD)
    yield folder.edit("out", preexec_fn=few), (-signal.SIGXFSZ, "", "")
    yield folder.read("out"), OLD
    yield folder.edit("out"), DONE
    yield folder.names(), USUAL


def test_part_that_is_being_written(folder):
    """It is locked, and stays as it is."""
    folder.write("out.part0", OLD)
    with open(folder.at("out.part0"), "rb+") as part:
        fcntl.flock(part, fcntl.LOCK_EX)
        os.fchmod(part.fileno(), 0o200)
        yield folder.edit("out"), DONE
        yield folder.names(), ["in.wasm", "out", "out.part0", "script"]
        yield part.read(), OLD
    yield folder.edit("out"), DONE
    yield folder.names(), USUAL


def test_many_at_once(folder):
    """Each has a part of its own, which no other takes for one that was left."""
    folder.write("large", HEADER + 16 * LARGE)
    wanted = HEADER + 16 * LARGE + TYPE
    for turn in range(5):
        runs = [folder.begin("edit", "large", "script", "out") for _ in range(8)]
        yield {run.communicate(timeout=SECONDS) for run in runs}, {(REPORT, b"")}
        yield folder.read("out") == wanted, True
        yield folder.names(), ["in.wasm", "large", "out", "script"]


def test_names_taken_beside(folder):
    """Files that stand where one would be made beside OUT, and are no part of a killed run, stay as they are."""
    for number in range(100):
        folder.write(f"out.part{number}", OLD)
    folder.write("out", OLD)
    yield folder.edit("out"), DONE
    yield folder.read("out"), EDITED
    yield {folder.read(f"out.part{number}") for number in range(100)}, {OLD}
    os.remove(folder.at("out.part7"))
    yield folder.edit("out"), DONE
    yield os.path.exists(folder.at("out.part7")), False


def test_link_in_the_place_of_a_part(folder):
    """A part is no link, whatever the permissions of what it leads to."""
    folder.write("target", OLD)
    os.chmod(folder.at("target"), 0o200)
    os.symlink("target", folder.at("out.part0"))
    yield folder.edit("out"), DONE
    yield folder.names(), ["in.wasm", "out", "out.part0", "script", "target"]
    os.chmod(folder.at("target"), 0o600)
    yield (os.readlink(folder.at("out.part0")), folder.read("target")), ("target", OLD)
