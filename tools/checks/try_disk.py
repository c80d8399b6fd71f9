#!/usr/bin/env python3
"""Tries what a built program asks of the disk, and that no archive is harmed: if the disk fails, if another process has the
file, if it is no plain file, and if standard streams are closed.

    tools/checks/try_disk.py PROGRAM

A case that cannot be run here is named with the reason: some take strace, and one a C compiler. The last line is
'N passed, M failed', and the status is 1 if any failed.
"""
import fcntl
import os
import re
import socket
import subprocess
import sys
import time
from concurrent.futures import ThreadPoolExecutor
from contextlib import contextmanager
from functools import partial
from pathlib import Path

sys.dont_write_bytecode = True  # nothing is left beside the scripts

from trying import LONGEST, Ended, hold, need, try_all

HERE = "127.0.0.1"
HALF_CALLS = Path(__file__).resolve().parent / "half_calls.c"
MADE_ARCHIVE = Path(__file__).resolve().parents[2] / "bench" / "made_archive.py"
INPUT, OUTPUT, ERRORS = 0, 1, 2
BETWEEN_LOOKS = 0.05  # seconds
LATE_OPENING = 2000000  # microseconds
CLOSINGS = ([INPUT], [OUTPUT], [ERRORS], [INPUT, OUTPUT, ERRORS])

REPORT = "report old rows 2024-07-01 2024-07-01"
COPY = "copy old new"
IMPORT = "import rows taken"
AGAIN = "import rows old"
ROUND = f"station settings old {HERE}:1"  # nobody listens at port 1
ENDS = {
    REPORT: Ended(0, "row 2024-07-01 00:05 5 outTemp=651\nrow 2024-07-01 00:10 5 outTemp=652\n"),
    COPY: Ended(0, "copied 2\n"),
    IMPORT: Ended(0, "imported 2 passed 0 rows 2\n"),
    ROUND: Ended(6, "link fault\n"),
}
DISK_FAULT = Ended(7, "disk fault\n")
WRITE_FAULT = Ended(9, "")
USAGE = 1  # the status without a word

# What a copy or an import of one batch of two rows asks of the disk for the new archive: its making, and then the batch.
CALLS = ("fsync", "fdatasync", "flock", "pwrite64")
COPY_ASKS = ["flock new LOCK_EX|LOCK_NB", "fsync .", "fdatasync new", "pwrite64 new 177 at 0", "fdatasync new",
             "pwrite64 new 352 at 177", "fdatasync new", "pwrite64 new 1 at 176", "fdatasync new"]
CALLED = [call for call, *_ in map(str.split, COPY_ASKS)]
OF_MAKING = 5  # of these calls
READS = "pread64"
ALL_READS = "read,readv,pread64,preadv,preadv2"
ERRORS = {"flock": ["EIO", "ENOLCK"], "fsync": ["EIO"], "fdatasync": ["EIO", "ENOSPC"], "pwrite64": ["EIO", "ENOSPC"]}
OPENINGS = {"report old days 2127-12-31 2127-12-31": Ended(0, ""), ROUND: ENDS[ROUND]}  # that ask for no row
MADE_ROWS = "10000"
MOST_READ, BYTES_OF_A_READ = 1.05, 12_000  # of each byte of an archive, and of one read at least, on average
MASK, MODE = 0o022, "0o100644"  # of a new file: all may read it, and its owner may write it
NOBODY = 65534  # who owns no file, and has no right of root's
FOR_ALL, NOT_READ, ALL_RIGHTS = 0o755, 0o333, 0o777


def row_slot(gate, rows, minute, tenths):
    """A row of 2024-07-01 at a minute of its first hour, with an outside temperature alone."""
    return bytes([gate, 1, rows, 0, 0xE1, 0x30, minute, 0, 5, 0, 0, 0, 1]) + bytes(7) \
        + tenths.to_bytes(2, "little") + bytes(154)


# An archive without rows, and one with a batch of two.
NEW_ARCHIVE = b"DVARCH02" + bytes(169)
ARCHIVE = NEW_ARCHIVE[:-1] + row_slot(1, 2, 5, 651) + row_slot(0, 0, 10, 652) + bytes(1)
LENGTHS = range(len(NEW_ARCHIVE) + 1)
MARK_LENGTH = 8  # of what an archive begins with; zeros follow
ZERO, ONES = 0, 0xFF  # what a power cut may leave in place of a byte
OTHER = ord("=")
SETTINGS = b"period = 5\nrows = 5000\n" + 20 * b"# calibration\n"
MOST_SHOWN = 20  # bytes of such a file
ROUNDS_AT_ONCE = 8


def with_archive(program):
    """Makes the archive, the text of its rows, and the settings of a round."""
    program.write("old", ARCHIVE)
    program.write("rows", ENDS[REPORT].printed)
    program.write("settings", "period = 5\n")


def traced(program, words, *options):
    """Runs the program under strace; gives how it ended, and the trace."""
    need("strace", "-o", "/dev/null", "true")
    ended = program.run(words, under=["strace", "-f", "-y", "-o", "trace", *options])
    return ended, program.read("trace").decode(errors="replace")


def asked(call, path, words, folder):
    """One call of a trace, as in `COPY_ASKS`."""
    if call == "pwrite64":
        words = " at ".join(words.rsplit(", ", 2)[1:])
    return f"{call} {os.path.relpath(path, folder)} {words}".rstrip()


@contextmanager
def round_under_way(program, **options):
    """A round that waits for a console which never answers, and so has its archive open."""
    with socket.create_server((HERE, 0)) as peer:
        peer.settimeout(LONGEST)
        words = f"station settings old {HERE}:{peer.getsockname()[1]}"
        with program.start(words, **options) as run, peer.accept()[0]:
            yield run


def closing(streams):
    """What closes these streams of a process that begins."""
    return lambda: [os.close(stream) for stream in streams]


def asked_in_order(program, words, path="new", folder="."):
    """Holds that what is written to is locked, that its folder is synced, and two waits for the disk in each batch."""
    wanted = [ask.replace("new", path).replace("fsync .", f"fsync {folder}") for ask in COPY_ASKS]
    ended, trace = traced(program, words, "-e", "trace=" + ",".join(CALLS))
    hold(words, ended, ENDS.get(words, ENDS[COPY]))
    calls = re.findall(r" (\w+)\(\d+<(.*?)>(?:, )?(.*)\) += ", trace)
    hold(f"{words} asked", [asked(*call, program.folder.resolve()) for call in calls], wanted)


def calls_in_order(program):
    """So does a copy to a file that is made, which all may read, and to one that is there."""
    with_archive(program)
    before = os.umask(MASK)
    asked_in_order(program, COPY)
    os.umask(before)
    hold("the mode of what it made", oct((program.folder / "new").stat().st_mode), MODE)
    program.write("new", b"")
    asked_in_order(program, COPY)


def calls_of_import_in_order(program):
    """So does an import, into a file that is made and into one that is there."""
    with_archive(program)
    asked_in_order(program, IMPORT, "taken")
    program.write("taken", b"")
    asked_in_order(program, IMPORT, "taken")


def import_that_fails(program):
    """Each call of an import that fails is a disk fault, and the same import made again has all rows."""
    with_archive(program)
    for place, call in enumerate(CALLED):
        for error in ERRORS[call]:
            inject = f"inject={call}:error={error}:when={CALLED[:place + 1].count(call)}"
            name = f"new{place}{error}"
            ended, _ = traced(program, f"import rows {name}", "-e", inject)
            hold(f"an import with {inject}", ended, DISK_FAULT)
            hold(f"an import after one with {inject}", program.run(f"import rows {name}").status, 0)
            hold(f"what is imported after {inject}", program.read(name), ARCHIVE)


def import_that_is_killed(program):
    """An import that was killed at any call goes on as it is made again, and then has all rows once."""
    with_archive(program)
    for place, call in enumerate(CALLED):
        inject = f"inject={call}:signal=KILL:when={CALLED[:place + 1].count(call)}"
        ended, _ = traced(program, f"import rows new{place}", "-e", inject)
        hold(f"what an import printed with {inject}", ended.printed, "")
        hold(f"an import after one with {inject}", program.run(f"import rows new{place}").status, 0)
        hold(f"what is imported after {inject}", program.read(f"new{place}"), ARCHIVE)


def calls_for_another_folder(program):
    """The folder that is synced is the one where the archive lies, also if a link in another one leads to it."""
    with_archive(program)
    (program.folder / "below").mkdir()
    asked_in_order(program, "copy old below/new", "below/new", "below")
    os.symlink("below/other", program.folder / "link")
    asked_in_order(program, "copy old link", "below/other", "below")
    os.symlink("below/new", program.folder / "read")
    hold("a report by a link", program.run(REPORT.replace("old", "read")), ENDS[REPORT])
    hold("a copy by links", program.run("copy read link"), ENDS[COPY])


def call_that_fails(program):
    """Each call that fails is a disk fault, whatever the error, and a copy made again is whole."""
    with_archive(program)
    for place, call in enumerate(CALLED):
        for error in ERRORS[call]:
            inject = f"inject={call}:error={error}:when={CALLED[:place + 1].count(call)}"
            name = f"new{place}{error}"
            ended, _ = traced(program, f"copy old {name}", "-e", inject)
            hold(f"a copy with {inject}", ended, DISK_FAULT)
            hold(f"a copy after one with {inject}", program.run(f"copy old {name}"), ENDS[COPY])
            hold(f"what is copied after {inject}", program.read(name), ARCHIVE)


def read_that_fails(program):
    """Each read of an archive that fails is a disk fault."""
    with_archive(program)
    of_archives = (*[word for name in ("old", "new") for word in ("-P", str(program.folder.resolve() / name))], "-e")
    for words in (REPORT, COPY, AGAIN):
        _, trace = traced(program, words, *of_archives, f"trace={READS}")
        hold(f"{words} reads", READS in trace, True)
        for place in range(trace.count(READS)):
            inject = f"inject={READS}:error=EIO:when={place + 1}"
            ended, _ = traced(program, words, *of_archives, inject)
            hold(f"{words} with {inject}", ended, DISK_FAULT)


def reads_of_opening(program, words):
    """How a command ends, and the sizes of its reads of the archive."""
    of_archive = ("-P", str(program.folder.resolve() / "old"), "-e", f"trace={ALL_READS}")
    ended, trace = traced(program, words, *of_archive)
    return ended, [int(size) for size in re.findall(r" = (\d+)$", trace, re.M)]


def archive_that_is_read_once(program):
    """An archive that is opened, be it to read or to write, is read once, and many slots at once."""
    for batch in ("1", "5"):
        for words, wanted in OPENINGS.items():
            subprocess.run([MADE_ARCHIVE, MADE_ROWS, batch, program.folder / "old"], check=True)
            program.write("settings", "")
            size = (program.folder / "old").stat().st_size
            ended, sizes = reads_of_opening(program, words)
            hold(words, ended, wanted)
            seen = f"{sum(sizes)} bytes of {size} in {len(sizes)} reads, in batches of {batch}: {words}"
            hold(f"{seen}: all and once", size - len(NEW_ARCHIVE) <= sum(sizes) <= MOST_READ * size, True)
            hold(f"{seen}: many at once", len(sizes) * BYTES_OF_A_READ <= size, True)


def making_that_is_killed(program):
    """An archive whose making was killed at any call is made by the next copy."""
    with_archive(program)
    for place, call in enumerate(CALLED[:OF_MAKING]):
        inject = f"inject={call}:signal=KILL:when={CALLED[:place + 1].count(call)}"
        ended, _ = traced(program, f"copy old new{place}", "-e", inject)
        hold(f"what a copy printed with {inject}", ended.printed, "")
        hold(f"a copy after one with {inject}", program.run(f"copy old new{place}"), ENDS[COPY])
        hold(f"what is copied after {inject}", program.read(f"new{place}"), ARCHIVE)


def put(image, place, byte):
    """An image with another byte at a place."""
    return image[:place] + bytes([byte]) + image[place + 1:]


def images_of_making():
    """What a power cut may leave of an archive that was being made: of each length, and with zeros or ones in its place."""
    for length in LENGTHS:
        yield NEW_ARCHIVE[:length]
        yield bytes(length)
        yield bytes([ONES]) * length
    for place in (*range(MARK_LENGTH), len(NEW_ARCHIVE) - 1):
        yield put(NEW_ARCHIVE, place, ONES)
        yield put(NEW_ARCHIVE, place, ZERO)


def images_of_others():
    """Short files that were no archive: settings of each length, and an archive of which one byte differs."""
    for length in LENGTHS[1:]:
        yield SETTINGS[:length]
    for place in range(len(NEW_ARCHIVE)):
        yield put(NEW_ARCHIVE, place, OTHER)


def round_over(program, wanted, left, numbered):
    """Holds how a round ends with an archive of these bytes, and what it leaves of them."""
    number, image = numbered
    name = f"short{number}"
    program.write(name, image)
    what = f"{len(image)} bytes with {image.strip(bytes([ZERO]))[:MOST_SHOWN]!r}"
    hold(f"a round with {what}", program.run(ROUND.replace("old", name)), wanted)
    hold(f"what is left of {what} is as wanted", program.read(name) == (left or image), True)


def short_archives(program):
    """What a power cut may leave of an archive that was being made is made anew."""
    with_archive(program)
    with ThreadPoolExecutor(ROUNDS_AT_ONCE) as pool:
        list(pool.map(partial(round_over, program, ENDS[ROUND], NEW_ARCHIVE), enumerate(sorted(set(images_of_making())))))


def short_files(program):
    """Any other short file is a disk fault, and stays as it is, also if an archive is copied to it."""
    with_archive(program)
    with ThreadPoolExecutor(ROUNDS_AT_ONCE) as pool:
        list(pool.map(partial(round_over, program, DISK_FAULT, None), enumerate(sorted(set(images_of_others())))))
    hold("a copy to settings", program.run("copy old settings"), DISK_FAULT)
    hold("the settings", program.read("settings"), b"period = 5\n")


def files_of_one_number(program):
    """Two files of different disks are two files, though both have the same number there."""
    with_archive(program)
    for disk in ("first", "second"):
        (program.folder / disk).mkdir()
    mounting = 'cd "$0" && mount -t tmpfs none first && mount -t tmpfs none second && cp old first && : >second/new && "$@"'
    under = ["unshare", "-rm", "sh", "-c", mounting, str(program.folder)]
    need(*under, "true")
    need(*under, "sh", "-c", '[ "$(stat -c %i first/old)" = "$(stat -c %i second/new)" ]')
    hold("a copy", program.run("copy first/old second/new", under=under), ENDS[COPY])


def calls_in_part(program):
    """A read or a write that the system makes in part is gone on with."""
    need("cc", "--version")
    with_archive(program)
    library = program.folder / "half_calls.so"
    subprocess.run(["cc", "-shared", "-fPIC", "-o", library, HALF_CALLS], check=True)
    with (program.folder / "notes").open("wb") as notes:
        ended = program.run(COPY, env={**os.environ, "LD_PRELOAD": str(library)}, stderr=notes)
    hold("the copy", ended, ENDS[COPY])
    hold("what it copied", program.read("new"), ARCHIVE)
    hold("its calls were made in part", b"half" in program.read("notes"), True)


def no_plain_file(program):
    """A pipe, a folder and a device are no archives, be it to read or to write."""
    with_archive(program)
    os.mkfifo(program.folder / "pipe")
    for name in ("pipe", ".", "/dev/null"):
        for words in (REPORT.replace("old", name), f"copy {name} new", f"copy old {name}", ROUND.replace("old", name)):
            hold(words, program.run(words), DISK_FAULT)


def pipe_is_not_opened(program):
    """A pipe is refused before it is opened, which could wait for ever, or wake who waits at its other end."""
    with_archive(program)
    os.mkfifo(program.folder / "pipe")
    for words in (REPORT.replace("old", "pipe"), "copy old pipe"):
        _, trace = traced(program, words, "-e", "trace=?open,openat")
        hold(f"{words} opens it", '"pipe"' in trace, False)


def file_that_was_replaced(program):
    """What was a plain file when it was asked for, and is none once it is opened, is refused too."""
    need("strace", "-o", "/dev/null", "true")
    with_archive(program)
    program.write("trace", "")
    os.symlink("/dev/null", program.folder / "device")
    late = f"inject=openat:delay_enter={LATE_OPENING}"
    under = ["strace", "-f", "-o", "trace", "-P", "old", "-e", "trace=statx,openat", "-e", late]
    with program.start(REPORT, under=under, stderr=subprocess.DEVNULL) as run:
        while b"statx" not in program.read("trace") and run.process.poll() is None:
            time.sleep(BETWEEN_LOOKS)
        os.replace(program.folder / "device", program.folder / "old")
        hold("the report", run.end(), DISK_FAULT)


def without_rights(program):
    """The command under which a run has no right of root's, if this script has them, and yet reads what a case has written."""
    for path in (program.folder, program.folder / "settings"):
        path.chmod(FOR_ALL)
    if os.geteuid():
        return []
    under = ["setpriv", f"--reuid={NOBODY}", f"--regid={NOBODY}", "--clear-groups"]
    need(*under, "sh", "-c", f'"$0" >&2; [ $? = {USAGE} ]', program.path)
    return under


def folder_that_is_not_read(program):
    """In a folder that may be written and not read a round leaves an empty file. Once it may be read the next round takes that."""
    with_archive(program)
    under = without_rights(program)
    (program.folder / "below").mkdir()
    words = ROUND.replace("old", "below/new")
    for mode, ended, left in ((NOT_READ, DISK_FAULT, b""), (ALL_RIGHTS, ENDS[ROUND], NEW_ARCHIVE)):
        (program.folder / "below").chmod(mode)
        hold(f"a round with a folder of mode {mode:o}", program.run(words, under=under), ended)
        hold(f"what it leaves in a folder of mode {mode:o}", program.read("below/new"), left)


def archive_of_another(program):
    """An archive that another process has open to write, or has locked in whichever way, can be read alone."""
    with_archive(program)
    program.write("new", ARCHIVE)
    with (program.folder / "new").open("rb") as shared:
        fcntl.flock(shared, fcntl.LOCK_SH)
        hold("a copy to it", program.run(COPY), DISK_FAULT)
    with round_under_way(program):
        hold("a round with it", program.run(ROUND), DISK_FAULT)
        hold("a copy to it", program.run("copy new old"), DISK_FAULT)
        hold("a report of it", program.run(REPORT), ENDS[REPORT])
    hold("a round with it, once it is free", program.run(ROUND), ENDS[ROUND])


def closed_streams(program):
    """With closed streams each archive is kept, and all ends as ever, or with 9 if the output is closed."""
    for streams in CLOSINGS:
        for words, ended in ENDS.items():
            with_archive(program)
            hold(f"{words} without {streams}", program.run(words, preexec_fn=closing(streams)),
                 WRITE_FAULT if OUTPUT in streams else ended)
            hold(f"the archive behind {words} without {streams}", program.read("old"), ARCHIVE)
        for made in ("new", "taken"):
            hold(f"what is in {made} without {streams}", program.read(made), ARCHIVE)
            os.remove(program.folder / made)


def held_streams(program):
    """The null device holds the place of each closed stream."""
    with_archive(program)
    for streams in CLOSINGS:
        with round_under_way(program, preexec_fn=closing(streams)) as run:
            held = [os.readlink(f"/proc/{run.process.pid}/fd/{stream}") for stream in streams]
            hold(f"in place of {streams}", held, ["/dev/null"] * len(streams))


CASES = (calls_in_order, calls_of_import_in_order, calls_for_another_folder, call_that_fails, read_that_fails,
         archive_that_is_read_once, making_that_is_killed, import_that_fails, import_that_is_killed, short_archives, short_files,
         files_of_one_number, calls_in_part, no_plain_file, pipe_is_not_opened, file_that_was_replaced, folder_that_is_not_read,
         archive_of_another, closed_streams, held_streams)

if __name__ == "__main__":
    sys.exit(try_all(sys.argv, __doc__, CASES, 1))
