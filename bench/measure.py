"""Runs commands in turn, and prints the time and the peak memory of each run.

    measure.py RUNS STATUSES SOURCE OUTPUT WORD.. [; WORD..]..

Each command runs RUNS times, after one run of all of them that isn't measured. A line for a run has
the number of its command, its seconds and its peak in KiB. STATUSES has the exit status that each
command must have, with a comma between two; any other one ends the measuring.

The peak of a process includes that of its parent before the child executes its program. So this is
a script of its own, and imports next to nothing.
"""

import posix
import sys
import time


def run(command, wanted, source, output):
    """The seconds and the peak in KiB of one run, from its start to its end."""
    actions = [
        (posix.POSIX_SPAWN_OPEN, 0, source, posix.O_RDONLY, 0),
        (posix.POSIX_SPAWN_OPEN, 1, output, posix.O_WRONLY | posix.O_CREAT | posix.O_TRUNC, 0o600),
        (posix.POSIX_SPAWN_OPEN, 2, "/dev/null", posix.O_WRONLY, 0),
    ]
    # (what an earlier run wrote isn't this one's to remove)
    try:
        posix.unlink(output)
    except FileNotFoundError:
        pass
    begin = time.perf_counter()
    process = posix.posix_spawn(command[0], command, posix.environ, file_actions=actions)
    _, status, usage = posix.wait4(process, 0)
    seconds = time.perf_counter() - begin
    status = posix.waitstatus_to_exitcode(status)
    if status != wanted:
        sys.exit(f"{' '.join(command)}: status {status}")
    return seconds, usage.ru_maxrss


def commands_of(words):
    """The commands, between which a `;` stands."""
    commands = [[]]
    for word in words:
        if word == ";":
            commands.append([])
        else:
            commands[-1].append(word)
    return commands


def main(runs, statuses, source, output, *words):
    commands = commands_of(words)
    wanted = [int(status) for status in statuses.split(",")]
    for turn in range(int(runs) + 1):
        for number, command in enumerate(commands):
            seconds, peak = run(command, wanted[number], source, output)
            if turn > 0:
                print(number, seconds, peak)


main(*sys.argv[1:])
