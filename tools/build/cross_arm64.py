#!/usr/bin/env python3
"""What a program for arm64 is linked with beyond what the toolchain brings: the C library of arm64, which Debian packs for
cross compilers, and the C functions in tools/build/arm64, which the toolchain has for x86-64 alone.

    tools/build/cross_arm64.py TO SOURCE..

makes a program for arm64 of a C file and those functions, for trials.
"""
import glob
import os
import shutil
import subprocess
import sys
import tempfile

TARGET = 'aarch64-unknown-linux-gnu'
PROCESSOR = 'armv8-a'  # the first 64-bit ARM: also a Raspberry Pi 3 and a Zero 2 W have it
HERE = os.path.dirname(os.path.realpath(__file__))
SOURCES = sorted(glob.glob(f'{HERE}/arm64/*.c'))
INSTALL = 'libc6-dev-arm64-cross libgcc-12-dev-arm64-cross'  # those of Debian 12
OF_THE_LIBRARY = ('Scrt1.o', 'crti.o', 'crtn.o', 'libc_nonshared.a', 'libc.so.6', 'libm.so.6', 'ld-linux-aarch64.so.1',
                  'libgcc_s.so.1')
OF_THE_COMPILER = ('crtbeginS.o', 'crtendS.o', 'libgcc.a')


class Lacking(Exception):
    """What is not installed."""


def newest(folders):
    """The folder of the compiler's latest version, which is its name."""
    return max(folders, key=lambda folder: int(os.path.basename(folder)), default='')


class Cross:
    """Debian's C library for arm64, and its headers. Another folder than the system's root is for trials."""

    def __init__(self, root=''):
        self.library = f'{root}/usr/aarch64-linux-gnu'
        self.compiler = newest(glob.glob(f'{root}/usr/lib/gcc-cross/aarch64-linux-gnu/[0-9]*'))
        self.files = [f'{self.library}/lib/{name}' for name in OF_THE_LIBRARY]
        self.files += [f'{self.compiler}/{name}' for name in OF_THE_COMPILER]
        self.headers = [f'{self.compiler}/include', f'{self.library}/include']
        lacking = [path for path in (*self.files, *self.headers) if not os.path.exists(path)]
        if lacking:
            raise Lacking(f'the C library for arm64 is missing ({os.path.basename(lacking[0])}); on Debian 12: apt install {INSTALL}')

    def toolchain(self, kit, folder):
        """Makes a toolchain's folder for arm64: the kit's programs beside this C library. Nothing is copied."""
        os.makedirs(f'{folder}/lib')
        os.symlink(f'{kit}/toolchain/bin', f'{folder}/bin')
        for file in self.files:
            os.symlink(file, f'{folder}/lib/{os.path.basename(file)}')
        return folder

    def compiled(self, sources, toolchain, folder):
        """Compiles C files by the toolchain's clang, and returns the objects."""
        where = [word for header in self.headers for word in ('-isystem', header)]
        objects = []
        for source in sources:
            objects.append(f'{folder}/{os.path.basename(source)[:-2]}.o')
            subprocess.run([f'{toolchain}/bin/clang', f'--target={TARGET}', f'-march={PROCESSOR}', '-nostdlibinc', *where, '-O2',
                            '-fPIC', '-Wall', '-Wextra', '-Werror', '-c', source, '-o', objects[-1]], check=True)
        return objects


def kit_folder():
    """The folder of the toolchain's kit."""
    return os.path.dirname(os.path.dirname(os.path.realpath(shutil.which('rt'))))


def link_command(kit, toolchain, to, objects):
    """What links objects into a program."""
    return [f'{kit}/bin/rattle-link', '--target', TARGET, '--toolchain', toolchain, '-o', to, *objects]


def main(to, *sources):
    cross, kit = Cross(), kit_folder()
    with tempfile.TemporaryDirectory() as folder:
        toolchain = cross.toolchain(kit, f'{folder}/toolchain')
        objects = cross.compiled([*sources, *SOURCES], toolchain, folder)
        return subprocess.run(link_command(kit, toolchain, to, objects), stderr=subprocess.DEVNULL, check=False).returncode


if __name__ == '__main__':
    sys.exit(main(*sys.argv[1:]) if len(sys.argv) > 2 else __doc__)
