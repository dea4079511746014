"""Gives commands to a binary, and takes inputs and answers apart."""
import subprocess

# a line that is no command is answered BAD, which nothing else here is: it tells where an answer or a row of answers begins and ends
FENCE = b"FENCE\n"
# the words of the commands whose lines head a frame
FRAMED = (b"BLOCK ", b"OFFER ", b"PEND ")


def commands_of(given):
    """The commands of an input, each with its frame."""
    at, found = 0, []
    while at < len(given):
        end = given.index(b"\n", at) + 1
        if given.startswith(FRAMED, at):
            end += int(given[at:end].split()[1]) + 1
        found.append(given[at:end])
        at = end
    return found


def answers_of(binary, commands):
    """The lines of the answers to some commands."""
    return subprocess.run([binary, "run"], input=b"".join(commands), stdout=subprocess.PIPE, check=True).stdout.decode().splitlines()


def split_at_fences(answers):
    """The rows of answers before, between and behind the fences."""
    rows = [[]]
    for answer in answers:
        if answer == "BAD":
            rows.append([])
        else:
            rows[-1].append(answer)
    return rows


def each_answer(binary, commands):
    """The lines of the answer to each command."""
    fenced = [part for command in commands for part in (command, FENCE)]
    return split_at_fences(answers_of(binary, fenced))[:-1]
