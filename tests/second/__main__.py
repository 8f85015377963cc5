"""The independent second program: `python3 tests/second COMMAND`; README.md says what for."""

import argparse
import contextlib
import io
import os
import sys

import calls
import sentences
from histories import History

NUMBERS = range(24)  # that a call can answer


def generate(arguments):
    """Write the calls of a history."""
    print(f"seed {arguments.seed}", flush=True)
    with writing(arguments) as writer:
        history = History(arguments.seed, writer)
        history.generate(arguments.count)
    print(f"{history.written} calls")
    return report_missing(history.counts)


def write_sentences(arguments):
    """Write the calls of document 01's sentences."""
    with writing(arguments) as writer:
        written = sentences.write(writer)
    print(f"{written} calls")
    return True


def write_carrier(arguments):
    """Write calls to a carrier."""
    from carrier import calls as asked, writing as carrier  # here alone: the gate's calls know nothing of it

    return write_beside(arguments, asked.Writer, carrier.write)


def write_scanner(arguments):
    """Write a scanner's calls."""
    from scanner import calls as asked, writing as scanner  # here alone, as above

    return write_beside(arguments, asked.Writer, scanner.write)


def write_beside(arguments, writer, write):
    """The calls of a library beside the gate's."""
    with writing(arguments, writer) as opened:
        written, missing = write(opened, arguments.seed, arguments.count)
    print(f"{written} calls")
    for call, number in missing:
        print(f"no drawn {call} was answered {number}")
    return not missing


@contextlib.contextmanager
def writing(arguments, writer=calls.Writer):
    """A writer of a call file, the answers to it and, beside it, the name of each call."""
    paths = (arguments.calls, arguments.answers, names_beside(arguments.calls))
    with contextlib.ExitStack() as stack:
        yield writer(*(stack.enter_context(open(path, "w", encoding="ascii", newline="\n")) for path in paths))


def compare(arguments):
    """Print the differences between the answers expected and got."""
    names = names_beside(arguments.calls)
    with contextlib.ExitStack() as stack:
        asked, expected, got = (
            stack.enter_context(open(path, encoding="ascii", errors="replace"))
            for path in (arguments.calls, arguments.expected, arguments.got)
        )
        wanted = expected.readlines()
        known = ["unnamed"] * len(wanted)
        if os.path.exists(names):
            known = stack.enter_context(open(names, encoding="ascii"))
        return calls.compare(asked, known, wanted, got, sys.stdout)


def coverage(arguments):
    """Count numbers, faults and pairs without keeping the calls."""
    history = History(arguments.seed, calls.Writer(Nowhere(), Nowhere(), Nowhere()))
    history.generate(arguments.count)
    counts = history.counts
    print(f"seed {arguments.seed}: {history.written} calls")
    for number in NUMBERS:
        print(f"number {number}: {counts.numbers[number]}")
    for side, count in counts.agreements.items():
        print(f"gate and trial agree on {side}: {count}")
    for name, count in counts.acts.items():
        print(f"act {count}: {name}")
    for name, count in counts.faults.items():
        print(f"fault {count}: {name}")
    for (lower, higher, answer), count in sorted(counts.pairs.items()):
        print(f"pair {check_text(*lower)} with {check_text(*higher)} gave {answer}: {count}")
    unmet = [name for name, count in counts.faults.items() if count == 0]
    print(f"{len(counts.faults) - len(unmet)} of {len(counts.faults)} faults came up")
    return report_missing(counts)


def check_text(number, late):
    return f"{number} against the record" if late else number


def run_cases(arguments):
    import cases  # here alone: reading it runs the model

    return cases.run(sys.stdout)


def run_rules(arguments):
    import rules  # here alone, as above

    return rules.run(sys.stdout)


def run_logs(arguments):
    from logs import play  # here alone: the calls know nothing of it

    return play.run(sys.stdout, arguments.program, arguments.seed, arguments.count)


def report_missing(counts):
    """True if every number came up, and both sides of K11's agreement."""
    missing = [number for number in NUMBERS if counts.numbers[number] == 0]
    if missing:
        print("numbers that never came up:", *missing)
    unmet = [side for side, count in counts.agreements.items() if count == 0]
    if unmet:
        print("gate and trial never agreed on:", *unmet)
    return not missing and not unmet


def names_beside(path):
    return path + ".names"


class Nowhere(io.TextIOBase):
    """A file that keeps nothing."""

    def write(self, text):
        return len(text)


def command_line():
    parser = argparse.ArgumentParser(prog="second", description=__doc__)
    commands = parser.add_subparsers(required=True)

    command = commands.add_parser("generate", help="write the calls of a history, and the answers to them")
    add_seed_and_count(command)
    add_files(command)
    command.set_defaults(run=generate)

    command = commands.add_parser("sentences", help="write calls by document 01's sentences, and the answers to them")
    add_files(command)
    command.set_defaults(run=write_sentences)

    command = commands.add_parser("carrier", help="write calls to a carrier, named and drawn ones, and the answers to them")
    add_seed_and_count(command)
    add_files(command)
    command.set_defaults(run=write_carrier)

    command = commands.add_parser("scanner", help="write a scanner's calls, named and drawn ones, and the answers to them")
    add_seed_and_count(command)
    add_files(command)
    command.set_defaults(run=write_scanner)

    command = commands.add_parser("compare", help="compare a program's answers with the expected ones")
    command.add_argument("--calls", required=True)
    command.add_argument("--expected", required=True)
    command.add_argument("--got", required=True)
    command.set_defaults(run=compare)

    command = commands.add_parser("cases", help="run the self-tests")
    command.set_defaults(run=run_cases)

    command = commands.add_parser("rules", help="hold docs/RULES.md to the model")
    command.set_defaults(run=run_rules)

    command = commands.add_parser("logs", help="hold a program that counts an access log to the counter")
    add_seed_and_count(command)
    command.add_argument("program", nargs="+")
    command.set_defaults(run=run_logs)

    command = commands.add_parser("coverage", help="count how often each number and each fault comes up")
    add_seed_and_count(command)
    command.set_defaults(run=coverage)
    return parser


def add_seed_and_count(command):
    command.add_argument("--seed", type=int, required=True)
    command.add_argument("--count", type=int, required=True)


def add_files(command):
    command.add_argument("--calls", required=True)
    command.add_argument("--answers", required=True)


if __name__ == "__main__":
    arguments = command_line().parse_args()
    sys.exit(0 if arguments.run(arguments) else 1)
