#!/usr/bin/env python3
"""Checks the examples of the program's help, and the page of the manual and the completions for bash that `make -C c
install` makes of it.

Each example has to end with status 0 from the top folder of the repository, `connect` and `serve` with one another. Each
command, each option and each line of the help has to be in the page, under its command, and the completions have to
offer the commands, and of each command its options and no others. Another program than that of `crates/t5250/out` may
be named. The last line tells how many passed and how many failed, and the status is 1 where one failed.
"""
import os
import pathlib
import re
import shutil
import socket
import subprocess
import sys

from counted import PROGRAM, TOP, Test, main

COMMANDS = ["check", "show", "trace", "play", "make", "reasons", "keys", "connect", "serve"]

OFFER = """
source "$1"
shift
COMP_WORDS=("$@") COMP_CWORD=$(($# - 1))
_t5250
printf '%s\\n' "${COMPREPLY[@]}"
"""


def run(*words):
    return subprocess.run(words, capture_output=True, text=True, check=True).stdout


def made(*words):
    return run(sys.executable, "-B", str(TOP / "c/manual.py"), *words)


def options(said):
    """The options in what `help` prints: those at the beginning of a line."""
    return {word for line in re.findall(r"^ +(?:-\w, )?--[\w-]+", said, re.M) for word in line.replace(",", "").split()}


def plain(page):
    """A page without its requests and escapes: its sections' names, each with its lines."""
    sections, lines = {}, []
    for line in page.splitlines():
        head = re.fullmatch(r'\.SH "?(.*?)"?', line)
        if head:
            lines = sections.setdefault(head[1], [])
        line = re.sub(r"\\f[BIR]", "", line).replace("\\-", "-").replace("\\(aq", "'").replace("\\(ga", "`")
        lines.append(line.replace("\\&", "").replace("\\e", "\\"))
    return sections


def page_lacks(said, lines):
    """The options and the lines of a command's help that aren't among the lines of its section."""
    heads = {word for line in lines for word in line.replace(",", "").split() if line.startswith("-")}
    lists = r"^(?:Usage|Commands|Arguments|Options|Exit status):|^ +(?:-\w, )?--[\w-]|^  [<\[]|^  \w+  +\w|^$"
    free = [line for line in said.splitlines()[1:] if not re.search(lists, line)]
    return [*(options(said) - heads), *(line for line in free if line not in lines)]


def offered(file, *words):
    return set(run("bash", "--norc", "-c", OFFER, "bash", file, *words).split("\n")) - {""}


def examples(said):
    """The lines that a command's help gives as examples."""
    return [line.strip() for line in said.partition("\nExamples:\n")[2].splitlines() if line.startswith("  ")]


def has_address(address):
    try:
        socket.create_server((address, 0), family=socket.AF_INET6 if ":" in address else socket.AF_INET).close()
    except OSError:
        return False
    return True


class Shell:
    """Carries out lines of a shell from the top folder, where `t5250` is the program."""

    def __init__(self, folder):
        os.symlink(PROGRAM, f"{folder}/t5250")
        self.environment = dict(os.environ, PATH=f"{folder}:{os.environ['PATH']}")

    def begin(self, line):
        return subprocess.Popen(["bash", "-o", "pipefail", "-c", line], cwd=TOP, env=self.environment, text=True,
                                stdin=subprocess.DEVNULL, stdout=subprocess.PIPE, stderr=subprocess.PIPE)

    def end(self, process):
        """Its status, and what it tells as a fault."""
        try:
            _, fault = process.communicate(timeout=120)
        except subprocess.TimeoutExpired:
            process.kill()
            return None, "it doesn't end"
        return process.returncode, fault

    def both(self, connect, serve, address):
        """A host that listens at a free port of an address, and a station that is told which."""
        host = self.begin(serve)
        listening = host.stdout.readline()
        station = (None, "nobody listens")
        if listening.startswith("listening "):
            port = listening.strip().rpartition(":")[2]
            station = self.end(self.begin(connect.replace(address, f"'{address.rpartition(':')[0]}:{port}'")))
        else:
            host.kill()
        return station, self.end(host)

    def carry_out(self, line):
        """What a line comes to, and with `connect` and `serve` the other end too, whose script has the same name."""
        command = line.split()[1]
        if command not in ("connect", "serve"):
            return [self.end(self.begin(line))]
        at = "[::1]:0" if "[::1]" in line else "127.0.0.1:0"
        line = re.sub(r"'\[::1\]:\d+'|\b127\.0\.0\.1:\d+\b", at, line)
        script = re.search(r"\S+\.(?:connect|serve)\b", line)
        name = script[0].rpartition(".")[0] if script else None
        if command == "connect":
            other = f"t5250 serve --wait 60{' --any' * ('live-host' in line)} '{at}' {f'{name}.serve' if name else ''}"
            return self.both(line, other, at)
        other = f"t5250 connect --wait 60 {at} {f'{name}.connect' if name else ''}"
        return self.both(other, line.replace(at, f"'{at}'"), at)


class TestManual(Test):
    def test_examples(self):
        shell = Shell(self.folder)
        for command in COMMANDS:
            for line in examples(run(PROGRAM, "help", command)):
                if "[::1]" in line and not has_address("::1"):
                    print(f"left out: {line}, since there is no IPv6 here")
                    continue
                ends = shell.carry_out(line)
                # A stream of which a record is refused has status 1.
                status = 1 if "refused" in line else 0
                self.count(f"{line} gives {ends}", all(end == (status, "") for end in ends))

    def test_hosts(self):
        """Nobody is sent to a host of someone else: what examples name is this machine."""
        for command in "connect", "serve":
            for line in examples(run(PROGRAM, "help", command)):
                named = re.findall(r"(\[.*?\]|[\w.-]+):\d+", line)
                self.count(f"{line} names {named}", named in (["127.0.0.1"], ["[::1]"]))
        for page in "README.md", "docs/MANUAL.md", "docs/DRIVING.md", "terminal/term5250.1":
            text = (TOP / page).read_text(encoding="utf-8")
            lines = re.findall(r"^.*\b(?:connect|serve|tap|term5250) .*\b[a-z]\w*\.(?:com|net|org)\b.*$", text, re.M)
            self.count(f"{page}: {lines}", lines == [])

    def test_options(self):
        """What docs/MANUAL.md says first of a command names each of its options."""
        said = (TOP / "docs/MANUAL.md").read_text(encoding="utf-8").split("\n\n")
        for command in COMMANDS:
            told = " ".join(part for part in said if f"`t5250 {command}" in part)
            lacking = options(run(PROGRAM, "help", command)) - {"-h", "--help", *re.findall(r"--[\w-]+", told)}
            self.count(f"{command} in docs/MANUAL.md lacks {lacking}", told != "" and lacking == set())

    def test_without_a_program(self):
        """A script of tests says in a line which program it lacks, and the row of CONTRIBUTING.md which it can have."""
        rows = re.findall(r"^`python3 (tests/run_live.py) (\S*/t5250) (\w+)`", (TOP / "CONTRIBUTING.md").read_text(), re.M)
        self.count(f"rows: {rows}", len(rows) == 1 and rows[0][1] == "build/unproved/t5250")
        for script in "run_live.py", "run_program.py", "run_faults.py", "run_manual.py", "run_random.py":
            done = subprocess.run([sys.executable, TOP / "tests" / script, "no/such/program"], capture_output=True, text=True)
            wanted = "no/such/program isn't built; a word with a slash names another, as build/unproved/t5250\n"
            self.count(f"{script}: {done}", (done.returncode, done.stdout, done.stderr) == (1, "", wanted))

    def test_begin(self):
        """What README shows first is what is printed, and what `make quick` says to type next goes well, pasted whole."""
        block = re.search(r"^```\n(.*?)^```$", (TOP / "README.md").read_text(encoding="utf-8"), re.M | re.S)[1]
        shell, typed, shown = Shell(self.folder), re.findall(r"^\$ (.*\n)", block, re.M), re.sub(r"^\$ .*\n", "", block, flags=re.M)
        self.count("README", self.pasted(shell, typed) == (1, shown, ""))
        after = re.findall(r"^\t'    (build/bin/.*?)'", (TOP / "c/Makefile").read_text(encoding="utf-8"), re.M)
        status, said, fault = self.pasted(shell, [line + "\n" for line in after])
        self.count(f"make quick: {status}, {said}, {fault}", (status, len(after), fault) == (0, 3, "") and "answer" in said)

    def pasted(self, shell, lines):
        """What lines come to in a shell, at a port that is free: the last one's status, and what is told."""
        with socket.create_server(("127.0.0.1", 0)) as taken:
            port = taken.getsockname()[1]
        text = "".join(lines).replace(":5250", f":{port}").replace("build/bin/t5250", "t5250")
        process = shell.begin(text + "status=$?\nwait\nexit $status\n")
        said, fault = process.communicate(timeout=120)
        return process.returncode, said, fault

    def test_page(self):
        page = made("page", PROGRAM, "1.2.3")
        sections = plain(page)
        whole = run(PROGRAM, "help")
        everywhere = [line for lines in sections.values() for line in lines]
        self.count("the version", '"ribbonscarp 1.2.3"' in page.splitlines()[0])
        self.count("the commands", COMMANDS == re.findall(r"^  (\w+) ", whole[: whole.index("Options:")], re.M)[:-1])
        self.count("the program's options and lines", page_lacks(whole, everywhere) == [])
        for command in COMMANDS:
            told = any(re.match(rf"t5250 {command}\b", line) for line in sections["SYNOPSIS"])
            self.count(f"what {command} is", told)
            lacking = page_lacks(run(PROGRAM, "help", command), sections[f"T5250 {command.upper()}"])
            self.count(f"the options and lines of {command}: {lacking}", lacking == [])
        chapters = re.findall(r"^## (.*)$", (TOP / "docs/MANUAL.md").read_text(encoding="utf-8"), re.M)
        heads = [head.upper().replace("'", "\\(aq") for head in chapters]
        self.count("the chapters of docs/MANUAL.md", heads and {*heads} <= {*sections})
        self.count("no mark is left in them", not any(re.search(r"`|\*\w", line) for line in everywhere[-200:]))
        if shutil.which("groff") is None:
            self.skipTest("groff isn't here")
        words = ["groff", "-man", "-Tutf8", "-ww", "-z"]
        done = subprocess.run(words, input=page, capture_output=True, text=True, check=False)
        self.count(f"groff takes it: {done.stderr}", (done.returncode, done.stderr) == (0, ""))

    def test_completions(self):
        file = f"{self.folder}/t5250.bash"
        pathlib.Path(file).write_text(made("completions", PROGRAM))
        pathlib.Path(f"{self.folder}/a script").write_text("")

        def offers(what, wanted, *words):
            self.count(what, offered(file, "t5250", *words) == wanted)
        offers("the commands", {*COMMANDS, "help", *options(run(PROGRAM, "help"))}, "")
        offers("a command that is begun", {"connect"}, "co")
        offers("help of a command", {"show", "serve"}, "help", "s")
        for command in COMMANDS:
            wanted = options(run(PROGRAM, "help", command))
            offers(f"the options of {command}", wanted, command, "-")
            long = {word for word in wanted if word.startswith("--")}
            offers(f"{command} again", long, command, "--wait", "5", "--")
        terminals = {"IBM-3179-2", "IBM-3196-A1"}
        offers("terminals", terminals, "connect", "--terminal", "IBM-31")
        offers("terminals behind =", terminals, "connect", "--terminal", "=", "IBM-31")
        offers("no value of a number", set(), "check", "--cut", "")
        for command in "check", "show":
            offers(f"the ends of {command}", {"host", "station"}, command, "--of", "")
            offers(f"an end of {command}", {"station"}, command, "--of", "=", "st")
        script = f"{self.folder}/a"
        for command in "connect", "serve":
            offers(f"a file to record {command}", {f"{script} script"}, command, "--record", script)
        for end in "--host", "--station":
            offers(f"a file for {end}", {f"{script} script"}, "trace", end, script)
        places = "connect h", "connect h : 23", "connect h 23", "serve --wait = 5 h"
        for said in "play", "check --cut 2", "check one two", *places:
            offers(f"a file behind {said}", {f"{script} script"}, *said.split(), script)
        for said in "connect", "serve --any", "play one", "reasons", "keys", "connect h 23 one":
            offers(f"no file behind {said}", set(), *said.split(), script)


main(needs_program=True)
