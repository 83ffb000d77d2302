#!/usr/bin/env python3
"""Compares the log program and the calls program with the second program, byte for byte.

    python3 differential.py [--quick] [--logs N] [--scripts N] [--records N] MI_LOG MI_CALLS

MI_LOG reads a log on standard input, MI_CALLS a script. Each is run on every stored input
(tests/logs, tests/scripts) and on random ones (200 logs and 160 scripts of 2,000 records each if no number
is given; the seeds are 0, 1, 2 and so on). What the inputs reach is reported, and something on a list that
no random input reaches is a failure too: equal outputs say little about a state that no input has seen. The
exit status is 0 only if every output is equal and everything was reached, 1 if not, and 2 if nothing could be
compared.

With --quick there are 20 random logs and 10 scripts of 500 records, and what they reach is not judged.
"""
import argparse
import collections
import concurrent.futures
import functools
import os
import pathlib
import subprocess
import sys

import reached
import reached_calls
from generate import generate
from generate_calls import generate_calls
from outputs import expected_output, first_difference
from programs import CALLS, LOG
from stored import stored_inputs

RECORDS = 2000              # in each random input
FEW_RECORDS = 500
SHOWN = 20                  # faults that are printed
NOT_JUDGED = "goals are not judged in a quick run"

# A program and its tests: what makes a random input, what an input reaches, what has to be reached, and how
# many random inputs there are, in a quick run too.
Subject = collections.namedtuple("Subject", "program generate replay goals many few")

SUBJECTS = {LOG.kind: Subject(LOG, generate, reached.replay, reached.GOALS, 200, 20),
            CALLS.kind: Subject(CALLS, generate_calls, reached_calls.replay, reached_calls.GOALS, 160, 10)}

# What comparing an input gave: the goals that it reached, the faults found, the lines of its output.
Result = collections.namedtuple("Result", "reached faults lines")

# Comparing. `kind` is the key of a subject, and `path` the program that is compared.

def program_faults(path, given, whose, wanted):
    """What is wrong with the program's run on this input. `whose` says where the wanted output is from."""
    try:
        ran = subprocess.run([path], input=given, capture_output=True, timeout=60)
    except subprocess.TimeoutExpired:
        return ["the program did not end within 60 seconds"]
    except OSError as error:
        return [f"the program can't be run: {error.strerror}"]
    if ran.stdout != wanted:
        return [first_difference("the program", ran.stdout, whose, wanted)]
    if ran.returncode or ran.stderr:
        return [f"the program's exit status is {ran.returncode}, its standard error {ran.stderr[:200]!r}"]
    return []

def compare_stored(subject, path, stored):
    """Both programs have to print the stored output."""
    if stored.input is None or stored.output is None:
        return Result(set(), [f"its {'input' if stored.input is None else 'output'} is not stored"], 0)
    whose = "the stored output"
    faults = program_faults(path, stored.input, whose, stored.output)
    expected = expected_output(subject.program, stored.input)
    if expected != stored.output:
        faults.append(first_difference("the second program", expected, whose, stored.output))
        return Result(set(), faults, 0)
    return Result(subject.replay(stored.input).reached, faults, expected.count(b"\n"))

def compare_random(subject, path, seed, count):
    """The program has to print what the second program prints."""
    given, run = subject.generate(seed, count)
    expected = expected_output(subject.program, given)
    return Result(run.reached, program_faults(path, given, "the second program", expected),
                  expected.count(b"\n"))

def named(name, compare, *given):
    """A comparison with the input's name before its faults; an error that ends it is a fault too."""
    try:
        result = compare(*given)
    except Exception as error:
        result = Result(set(), [f"the comparison ended with {error!r}"], 0)
    return result._replace(faults=[f"{name}: {fault}" for fault in result.faults])

def stored_result(kind, path, stored):
    return named(stored.name, compare_stored, SUBJECTS[kind], path, stored)

def random_result(kind, path, count, seed):
    return named(f"{kind}, seed {seed} of {count} records", compare_random, SUBJECTS[kind], path, seed, count)

def started(pool, kind, path, inputs, count):
    """The results of a subject's stored inputs and of its random ones, as the pool finds them."""
    return (pool.map(functools.partial(stored_result, kind, path), stored_inputs(SUBJECTS[kind].program)),
            pool.map(functools.partial(random_result, kind, path, count), range(inputs)))

# Reporting

def unreached(kind, stored, random):
    """Prints how many random inputs reached each goal; the goals that none did, whatever is stored."""
    goals = SUBJECTS[kind].goals
    by_stored = set().union(*(result.reached for result in stored))
    counts = collections.Counter(goal for result in random for goal in result.reached)
    missing = [goal for goal in goals if not counts[goal]]
    for goal in goals:
        print(f"{counts[goal]:5} {kind}: {goal}")
    print(f"The random {kind} reached {len(goals) - len(missing)} of {len(goals)} goals, "
          f"the stored ones {len(by_stored.intersection(goals))}.")
    for goal in missing:
        print(f"never reached: {goal}")
    return missing

def tell(faults):
    for fault in faults[:SHOWN]:
        print(fault)
    if len(faults) > SHOWN:
        print(f"and {len(faults) - SHOWN} faults more")

def verdict(kind, stored, random, judged):
    """Prints what was found; whether all is well. Goals are judged only if `judged`."""
    missing = unreached(kind, stored, random) if judged else []
    faults = [fault for result in stored + random for fault in result.faults]
    if not stored:
        faults.append(f"there are no stored {kind}")
    tell(faults)
    if faults or missing:
        goals = f"goals not reached: {len(missing)}" if judged else NOT_JUDGED
        print(f"FAILED. Faults of {kind}: {len(faults)}; {goals}.")
        return False
    lines = sum(result.lines for result in stored + random)
    goals = "every goal was reached" if judged else NOT_JUDGED
    print(f"All {lines} lines of {len(stored)} stored and {len(random)} random {kind} are equal, "
          f"and {goals}.")
    return True

# The command line

def number(text):
    if not text.isdecimal():
        raise argparse.ArgumentTypeError(f"{text} is not a number")
    return int(text)

def arguments():
    parser = argparse.ArgumentParser(
        description="Compares the log program and the calls program with the second program, byte for byte.")
    parser.add_argument("--quick", action="store_true",
                        help="few and short random inputs, and goals are not judged")
    for kind, subject in SUBJECTS.items():
        name = subject.program.name
        parser.add_argument(f"--{kind}", metavar="N", type=number,
                            help=f"how many random {kind} ({subject.many}; in a quick run {subject.few})")
        parser.add_argument(name, metavar=name.upper(),
                            help=f"a program that reads {kind}, crates/{name}/out/{name}")
    parser.add_argument("--records", metavar="N", type=number,
                        help=f"records in each of them ({RECORDS}; in a quick run {FEW_RECORDS})")
    given = parser.parse_args()
    if given.records is None:
        given.records = FEW_RECORDS if given.quick else RECORDS
    return given, {kind: chosen(parser, given, kind) for kind in SUBJECTS}

def chosen(parser, given, kind):
    """The program to be compared on this kind of input, and the number of random ones."""
    subject = SUBJECTS[kind]
    name, inputs = subject.program.name, getattr(given, kind)
    path = getattr(given, name)
    if not (os.path.isfile(path) and os.access(path, os.X_OK)):
        parser.error(f"{path} is no program that can be run; 'rt run' in crates/{name} builds out/{name}")
    if inputs is None:
        inputs = subject.few if given.quick else subject.many
    return str(pathlib.Path(path).resolve()), inputs

def main():
    given, programs = arguments()
    with concurrent.futures.ProcessPoolExecutor() as pool:
        under_way = {kind: started(pool, kind, path, inputs, given.records)
                     for kind, (path, inputs) in programs.items()}
        results = {kind: [list(found) for found in both] for kind, both in under_way.items()}
    return 0 if all([verdict(kind, *both, judged=not given.quick) for kind, both in results.items()]) else 1

if __name__ == "__main__":
    sys.exit(main())
