#!/usr/bin/env python3
"""Runs a command once the program for arm64 stands as its sources have it. Else it is proved and built first.

    tools/build/build_arm64.py [COMMAND WORDS..]
    tools/build/build_arm64.py --holds FILE      only tells by its status whether a file is that program
    tools/build/build_arm64.py --verdict         only prints its verdict, beside the one on the program for x86-64
    tools/build/build_arm64.py --sources         only prints the sum of the sources

It stands over the libraries that ./station or the gate has proved, which have no processor: only the last crate is done
again. If they do not stand either, they are proved first. The program is out/arm64/station_program, and out/logs/arm64.log
has what the toolchain said. Its verdict has to be the one on the program for x86-64, word by word, but for the processor.
Status 69: something is not installed. Status 70: the program does not stand. Otherwise the status is the command's.
"""
import contextlib
import functools
import hashlib
import importlib.machinery
import importlib.util
import os
import re
import shutil
import subprocess
import sys
import tempfile

sys.dont_write_bytecode = True  # nothing is left beside the scripts
import build
import build_plan
import crate_list
import cross_arm64

LACKING = 69
FOLDER = f'{build.TOP}/out/arm64'
PROGRAM = f'{FOLDER}/{crate_list.PROGRAM}'
BUILT = f'{FOLDER}/built'  # the sums of what the program was built from, and of the program
LOG = f'{build.LOGS}/arm64.log'
FIRST = f'{FOLDER}/first_verdict'  # the verdict on the program for x86-64 over the same libraries
FIRST_LOG = f'{build.LOGS}/x86_64.log'  # what the toolchain said of that program, if its proof was kept and nothing was said before
GATED = f'{build.TOP}/out/gated'  # the sum of what the gate has proved
CRATES = f'{build.TOP}/crates'
KEPT_WORK = 'incremental=trusted'  # says that a verdict rests on the work of earlier runs
OF_THE_PROCESSOR = ('target=', 'cpu=')
OF_THE_GATE = re.compile(rf'^== {crate_list.PROGRAM}\n(.*?)(?=^== |\Z)', re.M | re.S)
VERDICT = re.compile(r'^logic=proved .*', re.M)


def read(path):
    """The text of a file, or nothing if it is not there."""
    if not os.path.isfile(path):
        return ''
    with open(path, encoding='utf-8', errors='replace') as file:
        return file.read()


def sum_of_file(path):
    """The sum of a file, or nothing if it is not there."""
    if not os.path.isfile(path):
        return ''
    with open(path, 'rb') as file:
        return hashlib.file_digest(file, 'sha256').hexdigest()


def sum_of_sources():
    """The sum of what the program is built from, for whichever processor."""
    return build.sum_of(CRATES, crate_list.needed(build.TOP))


def sums(cross, program):
    """What is noted of a program: the sums of what it is built from here, and its own."""
    files = [os.path.realpath(__file__), cross_arm64.__file__, *cross_arm64.SOURCES, *cross.files]
    total = hashlib.sha256(' '.join([sum_of_sources(), *map(sum_of_file, files)]).encode())
    return f'{total.hexdigest()} {sum_of_file(program)}\n'


def stands(cross, program=PROGRAM):
    """Whether a program is the one for arm64 as its sources have it."""
    return os.access(program, os.X_OK) and read(BUILT) == sums(cross, program)


def load_rt():
    """The module that the command rt is, which has no word for another processor."""
    path = os.path.realpath(shutil.which('rt') or '')
    if not os.path.isfile(path):
        raise build.Fault('the toolchain is missing: there is no command rt')
    loader = importlib.machinery.SourceFileLoader('rt', path)
    made = importlib.util.module_from_spec(importlib.util.spec_from_loader('rt', loader))
    loader.exec_module(made)
    base = made.rtlib.Crate
    base.stamp = functools.cache(base.stamp)  # that of a crate asks those below it, on each way down
    return made


def has_stamps(crate):
    """Whether ./station has built libraries below. The gate leaves its own without stamps, and they fit one another alone."""
    return any(os.path.isfile(f'{it.folder}/out/rlib/stamp') for it in crate.below())


def is_gated():
    """Whether the gate has proved the sources as they stand."""
    return read(GATED).strip() == sum_of_sources()


def last_verdict(said):
    """The last verdict in what the toolchain said, or nothing."""
    return next(iter(VERDICT.findall(said)[-1:]), '')


def first_verdict(crate):
    """The verdict on the program for x86-64, in the log of what has built the libraries below, or nothing."""
    said = ''
    if has_stamps(crate):
        said = read(f'{build.LOGS}/{crate_list.PROGRAM}.log') if build.stands() else ''
    elif is_gated():
        said = '\n'.join(OF_THE_GATE.findall(read(f'{build.LOGS}/gate.log')))
    return last_verdict(said)


def libraries_stand(crate):
    """Whether each library below is built of its sources as they stand."""
    if has_stamps(crate):
        return all(it.is_built() for it in crate.below())
    return all(os.path.isdir(it.rlib) for it in crate.below()) and is_gated()


def of_any_processor(verdict):
    """The words of a verdict but those that name its processor."""
    return [word for word in verdict.split() if not word.startswith(OF_THE_PROCESSOR)]


def hold_verdict(said, first):
    """Holds the last verdict in what the toolchain said against the one on the program for x86-64, and returns it."""
    verdict = last_verdict(said)
    if f' target={cross_arm64.TARGET} ' not in verdict:
        raise build.Fault(f'the toolchain gives no verdict for {cross_arm64.TARGET}: {verdict!r}')
    ours, theirs = of_any_processor(verdict), of_any_processor(first)
    if ours != theirs:
        differ = [' '.join(word for word in one if word not in other) or 'nothing' for one, other in ((ours, theirs), (theirs, ours))]
        raise build.Fault(f'the verdict for arm64 is not the one for x86-64: {differ[0]}, in place of {differ[1]}')
    return verdict


def processes():
    """By how many processes the program is proved."""
    crates, count = crate_list.needed(build.TOP), len(os.sched_getaffinity(0))
    plan = build_plan.Plan(crates, build_plan.tasks_of(crates, CRATES), count, build_plan.free_memory())
    return plan.processes_for(crate_list.PROGRAM, count)


def prove(rt, crate, cross, first, made):
    """Proves, builds and links the program in the folder of a file to be made, and holds its verdict."""
    folder = os.path.dirname(made)
    toolchain = cross.toolchain(rt.KIT, f'{folder}/toolchain')
    objects = cross.compiled(cross_arm64.SOURCES, toolchain, folder)
    words = [*crate.words(['--jobs', str(processes()), '--target', cross_arm64.TARGET]), '--toolchain', toolchain]
    words += rt.rtlib.KEPT if KEPT_WORK in first.split() else []
    link = cross_arm64.link_command(rt.KIT, toolchain, made, [f'{made}.o', *objects])
    with open(LOG, 'w+', encoding='utf-8', errors='replace') as crate.out:
        status = crate.call(rt.rtlib.RATTLE, 'build', *words, '--backend', 'llvm', '-o', f'{made}.o')
        status = status or crate.call(*link) or crate.calls_beyond(made)
        crate.out.seek(0)
        said = crate.out.read()
    if status:
        raise build.Fault(build.failure('arm64'))
    hold_verdict(said, first)


def kept_verdict(rt, crate):
    """The verdict on the program for x86-64 over the libraries of a gate whose toolchain had kept its proof, so that the gate's log
    has none: the program alone is proved once more. Nothing, if that fails or the libraries are those of ./station."""
    if has_stamps(crate):
        return ''
    build.say('proves the program for x86-64 once more, since the gate printed no verdict of it')
    with build.turn(), tempfile.TemporaryDirectory() as folder, open(FIRST_LOG, 'w+', encoding='utf-8', errors='replace') as crate.out:
        words = [*crate.words(['--jobs', str(processes())]), '--toolchain', f'{rt.KIT}/toolchain']
        status = crate.call(rt.rtlib.RATTLE, 'build', *words, '--backend', 'llvm', '-o', f'{folder}/{crate_list.PROGRAM}.o')
        crate.out.seek(0)
        return '' if status else last_verdict(crate.out.read())


def stand_below(rt, crate):
    """Has the libraries and the program for x86-64 stand, and returns the verdict on that program."""
    if libraries_stand(crate) and (first := first_verdict(crate) or kept_verdict(rt, crate)):
        return first
    with contextlib.suppress(FileNotFoundError):
        os.remove(build.BUILT)  # it may be noted as built over other libraries
    subprocess.run([f'{build.TOP}/tools/build/build.py', '/bin/true'], check=False)
    first = first_verdict(crate)
    if not first or not libraries_stand(crate):
        raise build.Fault('the program for x86-64 does not stand, and the one for arm64 is built over its libraries')
    return first


def build_program(cross):
    """Proves and builds the program for arm64."""
    rt = load_rt()
    rt.rtlib.guarded()
    rt.Crate.allowed = rt.handles_of(build.TOP)
    crate = rt.Crate(f'{CRATES}/{crate_list.PROGRAM}', build.TOP, {})
    first = stand_below(rt, crate)
    build.say('proves and builds the program for arm64')
    with build.turn(), tempfile.TemporaryDirectory() as folder:
        if stands(cross):
            return  # another run has built it
        held = rt.rtlib.lock([*crate.below(), crate])
        made = f'{folder}/{crate_list.PROGRAM}'
        prove(rt, crate, cross, first, made)
        os.makedirs(FOLDER, exist_ok=True)
        shutil.move(made, PROGRAM)
        for name, text in ((FIRST, first), (BUILT, sums(cross, PROGRAM))):
            with open(name, 'w', encoding='ascii') as file:
                file.write(text)
        for it in held:
            os.close(it)


def main(words):
    try:
        if words in (['--sources'], ['--verdict']):
            print(sum_of_sources() if words == ['--sources'] else hold_verdict(read(LOG), read(FIRST)))
            return 0
        cross = cross_arm64.Cross()
        if words[:1] == ['--holds']:
            return 0 if stands(cross, words[1]) else 1
        if not stands(cross):
            build_program(cross)
    except cross_arm64.Lacking as lacking:
        build.say(lacking)
        return LACKING
    except (build.Fault, subprocess.CalledProcessError, OSError) as fault:
        build.say(fault)
        return build.FAILED
    if not words:
        print(f'{PROGRAM}: {os.path.getsize(PROGRAM)} bytes')
        return 0
    os.execv(words[0], words)


if __name__ == '__main__':
    sys.exit(main(sys.argv[1:]))
