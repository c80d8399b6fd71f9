"""Which crate is proved next, and by how many processes: as many side by side as processors and memory allow."""
import re
from typing import NamedTuple

import crate_list

# The memory in bytes that a proof is reckoned to take, as the toolchain reckons it for its own proofs side by side.
OF_ANY_CRATE = 1_000_000_000
OF_A_LINE_OF_CODE = 1_000_000
OF_A_LINE_OF_PROOF = 200_000
OF_A_LINE_BELOW = 80_000
OF_A_FURTHER_PROCESS = 0.6  # of what the first takes

SHARE_OF_FREE_MEMORY = 0.85  # some proofs take more than is reckoned
MOST_PROCESSES = 4  # of one proof: more gain nothing


def free_memory():
    """The bytes of memory that are free."""
    with open('/proc/meminfo', encoding='ascii') as file:
        return 1024 * int(re.search(r'MemAvailable: *(\d+)', file.read())[1])


class Task(NamedTuple):
    """A crate to prove: the lines of the longest chain of crates from it up, and the memory that its proof takes."""
    chain: int
    memory: int

    def memory_by(self, processes):
        """The memory that so many processes take for the proof."""
        return self.memory * (1 + OF_A_FURTHER_PROCESS * (processes - 1))


def tasks_of(crates, folder):
    """What each crate takes, by its name. The crates stand in the folder, and are given lowest first."""
    code = {name: crate_list.lines_of(f'{folder}/{name}', '.rt') for name in crates}
    proofs = {name: crate_list.lines_of(f'{folder}/{name}', '.antt') for name in crates}
    above = dict.fromkeys(crates, 0)
    tasks = {}
    for name in reversed(crates):
        chain = above[name] + code[name] + proofs[name]
        for used in crates[name].uses:
            above[used] = max(above[used], chain)
        below = sum(code[lower] for lower in crate_list.all_below(crates, name))
        tasks[name] = Task(chain, memory_of(code[name], proofs[name], below))
    return tasks


def memory_of(code, proofs, below):
    """The memory that a proof takes, by the lines of its crate's code and proofs, and of the code below."""
    return OF_ANY_CRATE + OF_A_LINE_OF_CODE * code + OF_A_LINE_OF_PROOF * proofs + OF_A_LINE_BELOW * below


class Plan:
    """The crates that are left, that are being proved, and that stand."""

    def __init__(self, crates, tasks, processors, memory):
        self.crates, self.tasks = crates, tasks
        self.processors, self.memory = processors, SHARE_OF_FREE_MEMORY * memory
        self.left = sorted(crates, key=lambda name: -tasks[name].chain)
        self.running = {}  # the processes of each crate that is being proved
        self.standing = []

    def begin(self):
        """Takes the ready crate with the longest chain that there is room for, with its processes, or None."""
        ready = [name for name in self.left if set(self.crates[name].uses) <= set(self.standing)]
        idle = self.processors - sum(self.running.values())
        for earlier, name in enumerate(ready):
            share = idle // (len(ready) - earlier)
            processes = self.processes_for(name, min(idle, max(share, 1)))
            if processes:
                self.left.remove(name)
                self.running[name] = processes
                return name, processes
        return None

    def processes_for(self, name, share):
        """How many of the processes of a share there is memory for. The only proof begins with any memory."""
        taken = sum(self.tasks[other].memory_by(count) for other, count in self.running.items())
        for processes in range(min(share, MOST_PROCESSES), 0, -1):
            if taken + self.tasks[name].memory_by(processes) <= self.memory:
                return processes
        return 0 if self.running else 1

    def end(self, name):
        """Notes that a crate stands."""
        del self.running[name]
        self.standing.append(name)
