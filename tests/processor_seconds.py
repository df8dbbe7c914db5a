"""processor_seconds.py TREE COMMAND..: runs a command, and prints a line for each crate of the tree with the processor seconds that the prover took
for it. Then it prints `all` with all that the command took, and `wall` with how long it ran. The gate takes its table from here.
"""
import os
import re
import resource
import subprocess
import sys
import threading
import time

TICKS = os.sysconf("SC_CLK_TCK")
KINDS = ("proof", "tests", "edits")


def own_memory(pid: str) -> int:
    """The bytes that a process holds, its part of what it shares with others."""
    found = re.search(r"(?m)^Pss: *(\d+)", open(f"/proc/{pid}/smaps_rollup", encoding="utf-8").read())
    return int(found[1]) << 10 if found else 0


class Spent:
    """What the provers have taken that work for a tree, since `begin`."""

    def __init__(self, top: str) -> None:
        self.top, self.most = os.path.realpath(top), 0
        self.taken: dict[tuple[str, str], tuple[str, str, float]] = {}
        self.dearest: dict[str, int] = {}
        self.is_done = threading.Event()
        # a daemon, so that the program ends when its main thread does, however it does
        self.watcher = threading.Thread(target=self.watch, daemon=True)

    def begin(self) -> None:
        self.watcher.start()

    def end(self) -> None:
        self.is_done.set()
        self.watcher.join()

    def watch(self) -> None:
        turn = 0
        while not self.is_done.wait(0.25):
            # (to ask for memory takes long)
            self.sample(with_memory=turn % 8 == 0)
            turn += 1

    def kind_of(self, folder: str, words: list[str]) -> str | None:
        """What a prover in a folder works at: a proof, tests, or a wrong body in a copy of its crate."""
        if folder.startswith(f"{self.top}/"):
            return "tests" if "--test" in words else "proof"
        if os.path.basename(folder).startswith(("rt-edit-", "pdp8-edit-")) and any(self.top in word for word in words):
            return "edits"
        return None

    def sample(self, with_memory: bool) -> None:
        """Notes what each prover has taken, by its crate and its work, and the memory of all of them together."""
        together = 0
        for pid in filter(str.isdigit, os.listdir("/proc")):
            try:
                words = open(f"/proc/{pid}/cmdline", "rb").read().decode(errors="replace").split("\0")
                if os.path.basename(words[0]) != "rattle" or "--crate-name" not in words:
                    continue
                numbers = open(f"/proc/{pid}/stat", encoding="utf-8").read().rsplit(")", 1)[1].split()
                kind = self.kind_of(os.readlink(f"/proc/{pid}/cwd"), words)
                memory = own_memory(pid) if with_memory and kind else 0
            except OSError:
                continue
            if kind:
                crate = words[words.index("--crate-name") + 1]
                self.taken[pid, numbers[19]] = (crate, kind, (int(numbers[11]) + int(numbers[12])) / TICKS)
                self.dearest[crate] = max(memory, self.dearest.get(crate, 0))
                together += memory
        self.most = max(self.most, together)

    def by_crate(self) -> dict[str, dict[str, float]]:
        """The processor seconds of each crate, by kind."""
        costs: dict[str, dict[str, float]] = {}
        for crate, kind, taken in self.taken.values():
            costs.setdefault(crate, dict.fromkeys(KINDS, 0))[kind] += taken
        return costs

    def table(self) -> str:
        """The processor seconds of each crate, the costliest first, and the most memory that was held."""
        row = "{:18}{:>9}{:>9}{:>9}{:>9}".format
        costs = self.by_crate()
        lines = [row("processor seconds", *KINDS, "all")]
        for crate, cost in sorted(costs.items(), key=lambda it: -sum(it[1].values())):
            lines.append(row(crate, *(f"{cost[kind]:.0f}" for kind in KINDS), f"{sum(cost.values()):.0f}"))
        sums = [sum(cost[kind] for cost in costs.values()) for kind in KINDS]
        lines.append(row("all", *(f"{it:.0f}" for it in sums), f"{sum(sums):.0f}"))
        dearest = max(self.dearest, key=lambda it: self.dearest[it], default="no crate")
        largest = self.dearest.get(dearest, 0)
        lines.append(f"{self.most / 1e9:.1f} GB of memory at most, {largest / 1e9:.1f} GB of it in one process ({dearest})")
        return "\n".join(lines)


def main(words: list[str]) -> int:
    spent, begun = Spent(words[0]), time.monotonic()
    spent.begin()
    status = subprocess.run(words[1:], cwd=words[0], stdin=subprocess.DEVNULL, stdout=sys.stderr).returncode
    spent.end()
    taken = resource.getrusage(resource.RUSAGE_CHILDREN)
    for crate, cost in sorted(spent.by_crate().items()):
        print(f"{crate} {cost['proof']:.0f}")
    print(f"all {taken.ru_utime + taken.ru_stime:.0f}\nwall {time.monotonic() - begun:.0f}")
    return status


if __name__ == "__main__":
    sys.exit(main(sys.argv[1:]))
