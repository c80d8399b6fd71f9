#!/usr/bin/env python3
"""Names each file that a shell script takes from a folder of this repository, and that is not there.

    tools/checks/named_files.py [SCRIPT ..]

A script finds its folders by its own place, in lines such as `tools=$(cd "$(dirname "$0")/.." && pwd)`. If it moves to another
folder, such a line finds nothing, and a script that is run by hand does not show it. So these lines are run here, and each name
behind `$tools/` and the like has to be there. Without a script all of tools/, .ci/run and station are looked at. The status is 0
if nothing is missing, else 1.
"""
import re
import subprocess
import sys
from pathlib import Path

TOP = Path(__file__).resolve().parents[2]
FOLDER = re.compile(r'^(tools|top|here|scripts)=(\$\((?:cd "\$\(dirname|dirname) .*\))$', re.M)
NAMED = re.compile(r'"?\$\{?(\w+)\}?"?/([\w./-]*\w)')
SCRIPTS = re.compile(r'^#!.*\bbash\b')
ELSEWHERE = 'out', '..'  # what is built, and what stands beside an installed script


def scripts():
    """The scripts of the shell in this repository."""
    files = [*sorted((TOP / 'tools').rglob('*')), TOP / '.ci/run', TOP / 'station']
    return [file for file in files if file.is_file() and SCRIPTS.match(file.read_text(errors='replace'))]


def folders(script, text):
    """The folders that a script finds by its own place: their names, and where they are."""
    found = list(FOLDER.finditer(text))
    lines = [match[0].replace('${BASH_SOURCE[0]}', '$0') for match in found]
    shown = [f'echo "${match[1]}"' for match in found]
    said = subprocess.run(['bash', '-c', '\n'.join(lines + shown), script], capture_output=True, text=True, check=True)
    return dict(zip((match[1] for match in found), said.stdout.splitlines()))


def missing(script):
    """The files that a script names below its folders, and that are not there."""
    text = script.read_text()
    found = folders(script, text)
    for name, rest in NAMED.findall(text):
        if name in found and not set(ELSEWHERE) & set(Path(rest).parts) and not (Path(found[name]) / rest).exists():
            yield f'${name}/{rest}'


def main():
    """Prints what is missing."""
    asked = [Path(word).resolve() for word in sys.argv[1:]] or scripts()
    troubles = [f'{script}: {name} is not there' for script in asked for name in sorted(set(missing(script)))]
    for trouble in troubles:
        print(trouble)
    return 1 if troubles else 0


if __name__ == '__main__':
    sys.exit(main())
