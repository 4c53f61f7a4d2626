"""Times and counts of programs that read standard input and write standard output."""

import os
import re
import subprocess
import time

SHOWN = 0.01  # least share of a function in the profile


def start(program, source):
    """Starts a program on a file with its output thrown away."""
    actions = [
        (os.POSIX_SPAWN_OPEN, 0, source, os.O_RDONLY, 0),
        (os.POSIX_SPAWN_OPEN, 1, os.devnull, os.O_WRONLY, 0),
    ]
    return os.posix_spawn(program, [program], os.environ, file_actions=actions)


def seconds(program, source):
    begin = time.perf_counter()
    _, status = os.waitpid(start(program, source), 0)
    if status != 0:
        raise SystemExit(f"{program} failed on {source}")
    return time.perf_counter() - begin


def spawned(spawner, programs, folder, files, blocks):
    """Seconds of each program over all files, block by block in turn."""
    total = {name: 0.0 for name in programs}
    edges = [files * i // blocks for i in range(blocks + 1)]
    for first, last in zip(edges, edges[1:]):
        for name, path in programs.items():
            words = [spawner, path, folder, str(first), str(last - first)]
            total[name] += float(subprocess.check_output(words))
    return total


def output(program, source):
    with open(source, "rb") as file:
        return subprocess.run([program], stdin=file, stdout=subprocess.PIPE, check=True).stdout


def callgrind(command, out, source=os.devnull, inside=None):
    """Instructions of one run, or of one function and what it calls; the profile is in the file `out`."""
    words = ["valgrind", "--tool=callgrind", f"--callgrind-out-file={out}"]
    words += [f"--toggle-collect={inside}"] if inside else []
    with open(source, "rb") as file:
        said = subprocess.run([*words, *command], stdin=file, stdout=subprocess.DEVNULL, stderr=subprocess.PIPE, check=True, text=True)
    return int(re.search(r"Collected : (\d+)", said.stderr).group(1))


def functions(out):
    """Instructions of each function in a profile, the most first."""
    said = subprocess.check_output(["callgrind_annotate", "--threshold=100", out], text=True)
    counts = {}
    for line in said.splitlines():
        found = re.match(r"\s*([\d,]+) +\([ \d.]+%\)  [^:]*:(.*?)(?: \[.*\])?$", line)
        if found:
            name = plain(found.group(2))
            counts[name] = counts.get(name, 0) + int(found.group(1).replace(",", ""))
    return sorted(counts.items(), key=lambda pair: -pair[1])


def copies(out):
    """Calls of memcpy and memmove in a profile."""
    names, called, total = {}, "", 0
    with open(out) as lines:
        for line in lines:
            named = re.match(r"c?fn=\((\d+)\)(?: (.*))?", line)
            if named:
                called = names.setdefault(named.group(1), named.group(2))
            elif line.startswith("calls=") and re.search("memcpy|memmove", called):
                total += int(line[6:].split()[0])
    return total


def samples(command, out, source=os.devnull):
    """Share of the time of each function, or none where perf can't tell."""
    record = ["perf", "record", "-q", "-e", "cpu-clock", "-F", "5000", "-o", out, *command]
    report = ["perf", "report", "--stdio", "-i", out, "--fields", "overhead,symbol"]
    try:
        with open(source, "rb") as file:
            subprocess.run(record, stdin=file, stdout=subprocess.DEVNULL, stderr=subprocess.DEVNULL, check=True)
        said = subprocess.run(report, stdout=subprocess.PIPE, stderr=subprocess.DEVNULL, check=True, text=True).stdout
    except (OSError, subprocess.CalledProcessError):
        return []
    shares = {}
    for share, where, name in re.findall(r"^ +([\d.]+)% +\[(.)\] (.*?)[ -]*$", said, re.M):
        name = "the kernel" if where == "k" else plain(name)
        shares[name] = shares.get(name, 0) + float(share)
    return sorted(shares.items(), key=lambda pair: -pair[1])


def shares(name, what, found):
    """The functions of a program that have a share to show, as rows of the profile."""
    return [(name, what, function, f"{share:.4f}") for function, share in found if share >= SHOWN]


def plain(name):
    """A function's name without hashes, call cycles and the C library's variants."""
    name = re.sub(r"::h[0-9a-f]{16}$", "", re.sub(r"'\d+$", "", name))
    for known in ("memcpy", "memmove", "memset", "memchr"):
        if known in name:
            return f"{'memcpy' if known == 'memmove' else known} (C library)"
    return "main" if name.startswith("0x") or name.endswith("::main") else name
