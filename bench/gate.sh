#!/usr/bin/env bash
# Processor time of the gate by crate: its proof, its tests, and its must-fail edits with the seed that these begin with.
# `rt ci` prints no times, so this looks twice a second at the processes named rattle and leaves them alone; what one does
# after the last look is lost, up to half a second each. The first crate of a command line is the one that is counted.
# Usage: bench/gate.sh sample [PID] > LOG   beside a run; with PID only what stands below it, until it ends, else until stopped
#        bench/gate.sh table LOG            seconds and peak memory by crate, the dearest first
set -u
exec python3 - "$@" <<'P'
import os, re, signal, sys, time
from collections import defaultdict

TICKS, PAGE, KINDS = os.sysconf("SC_CLK_TCK"), os.sysconf("SC_PAGE_SIZE"), ("proof", "tests", "seed", "edits")


def stat_of(pid):
    """The name, the parent, the seconds, the start and the bytes in memory of a process."""
    with open(f"/proc/{pid}/stat", errors="replace") as file:
        front, _, rest = file.read().rpartition(")")
    rest = rest.split()
    return front.partition("(")[2], rest[1], (int(rest[11]) + int(rest[12])) / TICKS, rest[19], int(rest[21]) * PAGE


def is_below(pid, top):
    while pid not in ("0", "1", top):
        pid = stat_of(pid)[1]
    return pid == top


def work_of(pid):
    """The crate and the kind of the work, or None for another command, as a layout of files."""
    with open(f"/proc/{pid}/cmdline", errors="replace") as file:
        words = file.read().split("\0")
    if "--crate-name" not in words:
        return None
    kind = "tests" if "--test" in words else "proof"
    if os.path.basename(os.readlink(f"/proc/{pid}/cwd")).startswith("rt-edit-"):
        kept = words[words.index("--incremental") + 1] if "--incremental" in words else ""
        kind = "seed" if os.path.basename(kept) == "seed" else "edits"
    return words[words.index("--crate-name") + 1], kind


def sample(top):
    seen, ends = {}, []
    for it in (signal.SIGINT, signal.SIGTERM, signal.SIGHUP):
        signal.signal(it, lambda *_: ends.append(True))

    def end(key):
        (crate, kind), seconds, peak = seen.pop(key)
        print(f"{crate} {kind} {seconds:.2f} {peak / 1e9:.2f}", flush=True)

    while not ends and (not top or os.path.exists(f"/proc/{top}")):
        now = set()
        for pid in filter(str.isdigit, os.listdir("/proc")):
            try:
                name, _, seconds, start, memory = stat_of(pid)
                if name != "rattle":
                    continue
                key = pid, start
                if key not in seen:
                    work = work_of(pid)
                    if not work or top and not is_below(pid, top):
                        continue
                    seen[key] = work, 0, 0
                work, before, peak = seen[key]
                # (a process that has ended and waits for its parent has no memory left)
                seen[key] = work, max(before, seconds), max(peak, memory)
                now.add(key)
            except (OSError, IndexError, ValueError):
                pass
        for key in [it for it in seen if it not in now]:
            end(key)
        time.sleep(0.5)
    for key in [*seen]:
        end(key)


def table(log):
    spent, runs, peaks = defaultdict(float), defaultdict(int), defaultdict(float)
    with open(log) as file:
        for line in file:
            found = re.fullmatch(r"(\w+) (\w+) ([\d.]+) ([\d.]+)\n?", line)
            if found and found[2] in KINDS:
                crate, kind = found[1], found[2]
                spent[crate, kind] += float(found[3])
                runs[crate, kind] += 1
                peaks[crate] = max(peaks[crate], float(found[4]))
    of = lambda crates: [sum(spent[it, kind] for it in crates) for kind in KINDS]
    row = lambda name, times, tries, peak: print(f"{name:20}" + "".join(f"{it:9.0f}" for it in times) + f"{tries:6}{sum(times):9.0f}{peak:9.1f}")
    print(f"{'processor seconds':20}" + "".join(f"{it:>9}" for it in KINDS) + f"{'tries':>6}{'all':>9}{'peak GB':>9}")
    for crate in sorted(peaks, key=lambda it: -sum(of([it]))):
        row(crate, of([crate]), runs[crate, "edits"], peaks[crate])
    row("all", of(peaks), sum(runs[it, "edits"] for it in peaks), max(peaks.values(), default=0))


match sys.argv[1:]:
    case ["sample"]:
        sample("")
    case ["sample", pid] if pid.isdigit():
        sample(pid)
    case ["table", log]:
        table(log)
    case _:
        sys.exit("usage: bench/gate.sh sample [PID] > LOG, bench/gate.sh table LOG")
P
