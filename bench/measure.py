"""What the measuring scripts share: the program, runs of children, and rows of a table."""
import collections
import os
import subprocess
import sys
import traceback

TOP = os.path.dirname(os.path.dirname(os.path.abspath(__file__)))

# A child that reads a file, and how it has to end: its status, and its text if that matters.
Command = collections.namedtuple("Command", "words path status text")

# Processor time in seconds, and peak memory in MB.
Run = collections.namedtuple("Run", "seconds memory")


def arguments(largest):
    """The program, which is built where none is named, and the number of the command line, or the given one."""
    words = sys.argv[1:]
    numbers = [int(word) for word in words if word.isdigit()]
    named = [word for word in words if not word.isdigit()]
    return named[0] if named else built_program(), numbers[0] if numbers else largest


def built_program():
    """Builds the program and runs it once, on an example that it accepts."""
    folder = os.path.join(TOP, "crates", "cplan")
    with open(os.path.join(TOP, "examples", "triangle.txt"), "rb") as example:
        built = subprocess.run(["rt", "run", "--", "check"], cwd=folder, stdin=example, capture_output=True, text=True)
    if built.returncode != 0:
        sys.exit("the program was not built: " + built.stderr)
    return os.path.join(folder, "out", "cplan")


def sha256sum(path):
    return Command(["sha256sum"], path, 0, None)


def run_once(command):
    with open(command.path, "rb") as source:
        child = subprocess.Popen(command.words, stdin=source, stdout=subprocess.PIPE)
        text = child.stdout.read()
        _, status, usage = os.wait4(child.pid, 0)
        child.returncode = os.waitstatus_to_exitcode(status)
    if child.returncode != command.status or command.text not in (None, text):
        sys.exit("%s: status %d, %r in place of status %d, %r" % (" ".join(command.words), child.returncode, text, command.status, command.text))
    return Run(usage.ru_utime + usage.ru_stime, usage.ru_maxrss / 1024)


def measured(commands):
    """The fastest run of each command. The commands take turns, so that a busy moment of the machine meets
    them all: three rounds, more where they are short, and fewer where they are long."""
    rounds = []
    spent = 0
    while spent < (20 if len(rounds) < 3 else 2):
        rounds.append([run_once(command) for command in commands])
        spent += sum(run.seconds for run in rounds[-1])
    return [min(runs) for runs in zip(*rounds)]


def apart(task):
    """What the task gives as bytes, run in a process of its own, so that its memory is not counted as
    that of a child which is measured later."""
    tell, told = os.pipe()
    child = os.fork()
    if child == 0:
        try:
            os.write(told, task())
            os._exit(0)
        except BaseException:
            traceback.print_exc()
            os._exit(1)
    os.close(told)
    text = os.read(tell, 1000)
    os.close(tell)
    if os.waitpid(child, 0)[1] != 0:
        sys.exit("a task failed")
    return text


def print_head(names):
    print_row(names)
    print_row(["---"] * len(names))


def print_row(cells):
    print("| %s |" % " | ".join(cells), flush=True)
