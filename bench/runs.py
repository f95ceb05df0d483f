"""Keeps runs of the benches as files of bench/results, and reads what bench/media.sh prints, alone or within such a file: for bench/keep, bench/table
and bench/picture."""
import glob
import os
import platform
import re
import statistics
import subprocess
import time

TOP = os.path.dirname(os.path.dirname(os.path.abspath(__file__)))
RESULTS = f"{TOP}/bench/results"

LINE = re.compile(r"^(paced \d+ (?:plain|secure)|(?:flood|one-thread) (?:plain|secure)|idle \d+|setup|lanes (?:relay|\d+ threads)) +(ours|peer|relay) +(\w+=\S+(?: \w+=\S+)*)$")
FACT = re.compile(r"^- (Date|Machine|Kit|Program|Command|Beside it): (.*)$")


class Run:
    """One run of bench/media.sh: its facts, and for each case and program a list of measurements, each of figures by their names."""

    def __init__(self, text, path=""):
        self.path, self.facts, self.cases = path, {}, {}
        for line in text.splitlines():
            fact, measured = FACT.match(line), LINE.match(line)
            if fact:
                self.facts[fact[1]] = fact[2]
            if measured:
                figures = {name: float(value) for name, value in (word.split("=") for word in measured[3].split())}
                self.cases.setdefault(self.name_of(measured[1], text), {}).setdefault(measured[2], []).append(figures)

    @staticmethod
    def name_of(case, text):
        """A flood of programs that were told to have one thread is another case than one of as many as there are by default."""
        return case.replace("flood", "one-thread") if re.search(r"THREADS=1\b|--num-threads=1\b", text) else case

    def link(self):
        """A link to the run, from docs/."""
        name = os.path.basename(self.path)
        return f"[{name.removesuffix('.md')}](../bench/results/{name})"


def read(path):
    with open(path, encoding="utf-8") as it:
        return Run(it.read(), path)


def newest():
    """The runs that have figures, the newest first; of one date the last by name."""
    runs = [it for it in map(read, glob.glob(f"{RESULTS}/*.md")) if it.cases]
    return sorted(runs, key=lambda it: (it.facts.get("Date", ""), it.path), reverse=True)


class Figures:
    """The medians of several runs: each case is taken from the first of them that has it."""

    def __init__(self, runs):
        self.source = {}
        for run in runs:
            for case in run.cases:
                self.source.setdefault(case, run)

    def rounds(self, case, program):
        return self.source[case].cases[case].get(program, []) if case in self.source else []

    def median(self, case, program, figure):
        """The median over a program's rounds, or None where the case wasn't measured."""
        values = [it[figure] for it in self.rounds(case, program) if figure in it]
        return statistics.median(values) if values else None

    def runs(self):
        """The runs from which the cases come, each once, with the cases."""
        found = {}
        for case, run in self.source.items():
            found.setdefault(run.path, (run, []))[1].append(case)
        return list(found.values())


def said(*words):
    """What a command prints, or nothing where it fails."""
    try:
        return subprocess.run(words, cwd=TOP, stdout=subprocess.PIPE, stderr=subprocess.DEVNULL, text=True, check=True).stdout.strip()
    except (OSError, subprocess.CalledProcessError):
        return ""


def first(path, name):
    """The first value of a name in a file of /proc."""
    try:
        with open(path, encoding="utf-8") as it:
            return re.search(rf"^{name}\s*: *(.*)$", it.read(), re.M)[1]
    except (OSError, TypeError):
        return "?"


def keep(text, name, title, beside, program, command=""):
    """Keeps what a bench printed as a file of bench/results, with its head: the file's path. The program is named by the commit of which it was built; without
    one that is the newest."""
    memory = int(re.sub(r"\D", "", first("/proc/meminfo", "MemTotal")) or 0) / 1024**2
    told = re.search(r"^(bench/\S+(?: [^:\n]*)?): \d+ processors", text, re.M)
    command = command or told and told[1] or "not noted"
    if not program:
        program = said("git", "rev-parse", "--short", "HEAD") or "not noted"
        program += ", with changes" if said("git", "status", "--porcelain", "--", "crates") else ""
    number, path = 1, f"{RESULTS}/{time.strftime('%Y-%m-%d')}-{name}.md"
    while os.path.exists(path):
        number += 1
        path = f"{RESULTS}/{time.strftime('%Y-%m-%d')}-{name}-{number}.md"
    with open(path, "w", encoding="utf-8") as it:
        it.write(f"# {title}\n\n- Date: {time.strftime('%Y-%m-%d %H:%M')}\n"
                 f"- Machine: {os.cpu_count()} processors ({first('/proc/cpuinfo', 'model name')}), {memory:.0f} GB, Linux {platform.release()}\n"
                 f"- Kit: {(said('rt', 'version').split() or ['not noted'])[0]}\n- Program: commit {program}\n"
                 f"- Command: `{command}`\n- Beside it: {beside}\n\n"
                 f"What the words of a line mean is told at the top of `bench/media.c`.\n\n```\n{text.strip()}\n```\n")
    return path
