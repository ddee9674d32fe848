"""Plays the generated scripts through a player program and compares each answer line with the model's.

Run: python3 tests/play.py PLAYER [ARGUMENT ..]

Many scripts go through one process, since `arena` and `start` begin anew. The costs go on, and so does what is lent. So there is one
process for each m, with the scripts whose largest m it is, and its cost lines are held against that m; and every script ends with the
whole table lent. Prints one summary line; on a difference the script's name and the first differing line, and exit 1.
"""

import itertools
import re
import subprocess
import sys
import tempfile

from model import M_MOST, PAGE, block_size
from scripts import ANY, COST, Script, all_scripts

SECONDS = 120
NUMBER = r'(0|[1-9][0-9]*)'

# Lines that are no request. Each must stop the player.
BAD_LINES = (
    'jump', 'free 0', 'Take 16', 'TAKE 16', 'take16', 'tak 16', 'takes 16', '16', 'take: 16', ':', 'start:', 'check-up', 'check up',
    'take', 'give', 'which', 'arena', 'table', 'flip', 'flip 1', 'give # 0', 'take #16',
    'take 18446744073709551616', 'give 18446744073709551616', 'which 18446744073709551616', 'arena 18446744073709551616',
    'take 18446744073709551617', 'give 18446744073709552640', 'take 36893488147419103232', 'take 99999999999999999999',
    'which 340282366920938463463374607431768211456', 'flip 18446744073709551616 0', 'flip 0 18446744073709551616',
    'take x', 'take 1x', 'take x1', 'take 0x10', 'take 1e3', 'take 1,000', 'take 1_000', 'take 1.5', 'take 16;', 'give O',
    'arena three', 'flip x 0', 'flip 0 x',
    'take -1', 'take -0', 'take +1', 'give -1024', 'which - 1', 'arena -1', 'flip -1 0', 'flip 0 -1',
    'take 1 2', 'give 0 0', 'which 0 0', 'start now', 'start 3', 'figures 1', 'checkup 0', 'cost 1', 'arena 3 4', 'table short 1',
    'flip 1 2 3', 'table long', 'table 1', 'table Short',
)


class Wrong(Exception):
    """A difference between the player and what is expected."""


def play(command, text):
    """The player's answer lines, its messages and its exit code for a script on standard input."""
    try:
        done = subprocess.run(command, input=text.encode(), capture_output=True, timeout=SECONDS)
    except subprocess.TimeoutExpired:
        raise Wrong(f'the player ran for more than {SECONDS} s') from None
    return done.stdout.decode(errors='replace').splitlines(), done.stderr.decode(errors='replace'), done.returncode


def cost_bounds(m):
    """The most cells that one take, give back and which may read or write (docs/TABLE.md, the walks)."""
    return 3 * (m + 1) + 2, 2 * (m + 1) + 2, max(m + 1, 2)


def right_form(line, text):
    """Whether an answer is of the right form for any table; an offset that is answered lies in the arena with its block."""
    whole = PAGE << line.m
    word, *numbers = line.request
    if word == 'take':
        if numbers[0] == 0:
            return text == 'refusal 1'
        if numbers[0] > whole:
            return text == 'refusal 2'
        found = re.fullmatch(NUMBER, text)
        return text == 'refusal 3' or bool(found) and int(text) + block_size(numbers[0]) <= whole
    if word == 'give':
        return text == 'refusal 4' or text == 'done' and numbers[0] < whole
    if word == 'which':
        found = re.fullmatch(f'{NUMBER} {NUMBER}', text)
        return text == 'refusal 4' or bool(found) and numbers[0] < whole and sum(map(int, found.groups())) <= whole
    if word == 'figures':
        return bool(re.fullmatch(f'{NUMBER} {NUMBER} {NUMBER}', text))
    return word == 'checkup' and text in ('sound', 'unsound')


def right_cost(m, text):
    """Whether a cost line's three numbers are within the bounds for m."""
    found = re.fullmatch(f'{NUMBER} {NUMBER} {NUMBER}', text)
    return bool(found) and all(int(cost) <= most for cost, most in zip(found.groups(), cost_bounds(m)))


def right_answer(line, got, m):
    """Whether a whole answer line is as it should be, in a process with this largest m."""
    request = ' '.join(map(str, line.request))
    if not got.startswith(request + ': '):
        return False
    text = got[len(request) + 2:]
    if line.expected == ANY:
        return right_form(line, text)
    if line.expected == COST:
        return right_cost(m, text)
    return text == line.expected


def compare(script, got, m):
    """Compare the answer lines `got` with the script's, in a process with this largest m; raise Wrong at the first that differs."""
    got = iter(got)
    for number, line in enumerate(script.lines, 1):
        if line.expected is None:
            continue
        answer = next(got, None)
        if answer is None or not right_answer(line, answer, m):
            raise Wrong(f'script {script.name}, line {number} ({line.text.strip()}): expected {line.expected}, got {answer!r}')


def play_group(command, m, scripts):
    """Play all scripts of one m in one process."""
    end = Script('end', m)
    end.ask_all((('start',), ('take', 1), ('which', 0), ('give', 0)))
    end.close()
    scripts = [*scripts, end]
    got, messages, code = play(command, ''.join(line.text + '\n' for script in scripts for line in script.lines))
    at = 0
    for script in scripts:
        answers = sum(line.expected is not None for line in script.lines)
        compare(script, got[at:at + answers], m)
        at += answers
    if len(got) != at:
        raise Wrong(f'm = {m}: {len(got) - at} lines more than there are answers, first {got[at]!r}')
    if code != 0:
        raise Wrong(f'm = {m}: exit code {code} {messages.strip()}')
    if '0' in got[-1].split()[1:]:
        raise Wrong(f'm = {m}: {got[-1]!r} counts no access')
    return at


def groups(scripts):
    """The scripts by the largest m in them that is not refused, small ones first."""
    by_m = {}
    for script in scripts:
        by_m.setdefault(max(line.m for line in script.lines if line.m <= M_MOST), []).append(script)
    return sorted(by_m.items())


def play_bad_line(command, bad):
    """A bad line stops the player with a message that names its number, after the answers to the lines before it."""
    head = ['# a bad line below', 'arena 3', '', 'start', 'take 100  # answered', 'which 5']
    answers = ['start: done', 'take 100: 0', 'which 5: 0 128']
    got, messages, _ = play(command, '\n'.join([*head, bad, 'take 200', 'figures']) + '\n')
    number = len(head) + 1
    if got[:len(answers)] != answers:
        raise Wrong(f'bad line {bad!r}: the lines before it were answered {got}')
    rest = got[len(answers):]
    if any(line.startswith(('take 200:', 'figures:')) for line in rest):
        raise Wrong(f'bad line {bad!r}: the lines after it were answered {rest}')
    if not re.search(rf'\bline {number}\b', '\n'.join(rest) + messages, re.IGNORECASE):
        raise Wrong(f'bad line {bad!r}: no message names line {number}: {rest} {messages!r}')


def play_costs(command):
    """The costs are since the player began: `arena` forgets none of them, and none grows smaller."""
    served = 'start\ntake 1\nwhich 0\ngive 0\n'
    text = 'arena 3\nstart\ntake 1\n' + ''.join(f'cost\narena {m}\ncost\n{served}' for m in (0, M_MOST + 1, 5, 1)) + 'cost\n'
    got = [line for line in play(command, text)[0] if line.startswith('cost:')]
    found = [re.fullmatch(f'cost: {NUMBER} {NUMBER} {NUMBER}', line) for line in got]
    if len(found) != 9 or None in found:
        raise Wrong(f'nine cost lines are answered {got}')
    costs = [tuple(map(int, one.groups())) for one in found]
    if costs[0][0] == 0 or costs[0][1:] != (0, 0):
        raise Wrong(f'after one take: {got[0]!r}')
    if costs[0:8:2] != costs[1:8:2]:
        raise Wrong(f'arena changes the costs: {got}')
    if any(new < old for before, after in itertools.pairwise(costs) for old, new in zip(before, after)):
        raise Wrong(f'a cost grows smaller: {got}')


def play_edges(command):
    """A script from a file, an empty one, one whose last line has no end, and the costs over several arenas."""
    text = 'arena 1\nstart\ntake 1025\nfigures'
    answers = ['start: done', 'take 1025: 0', 'figures: 2048 2048 0']
    with tempfile.NamedTemporaryFile('w', suffix='.txt') as file:
        file.write(text)
        file.flush()
        if play([*command, file.name], '')[0] != answers:
            raise Wrong('a script from a file is not answered as one from standard input')
    if play(command, text)[0] != answers:
        raise Wrong('a last line with no end is not answered')
    for empty in ('', '\n', '# nothing'):
        if play(command, empty)[0] != []:
            raise Wrong(f'the script {empty!r} is answered with something')
    got = play(command, 'cost\n')[0]
    if got != ['cost: 0 0 0']:
        raise Wrong(f'cost before any request: {got}')
    play_costs(command)


def play_all(command, scripts, bad_lines):
    """These scripts, these bad lines and the edges; returns the numbers of scripts and of answers compared."""
    answers = 0
    for m, some in groups(scripts):
        answers += play_group(command, m, some)
    for bad in bad_lines:
        play_bad_line(command, bad)
    play_edges(command)
    return len(scripts), answers


def main(command):
    try:
        scripts, answers = play_all(command, list(all_scripts()), BAD_LINES)
    except Wrong as wrong:
        print(f'play: {wrong}')
        return 1
    print(f'play: {scripts} scripts, {answers} answers and {len(BAD_LINES)} bad lines, no difference')
    return 0


if __name__ == '__main__':
    if len(sys.argv) < 2:
        sys.exit(__doc__)
    sys.exit(main(sys.argv[1:]))
