"""README's worked example: each line's answer is the model's and the player's.

Run: python3 tests/readme.py PLAYER README

The example is a table with a line of a script, the answer line and a remark in each row; the first row is `arena M`.
"""

import re
import subprocess
import sys

from scripts import Script

ROW = re.compile(r'^\| `([^`]+)` \| (?:`([^`]*)`)? ?\|', re.M)


def example(text):
    """The rows of the example: (line, answer or '')."""
    section = re.search(r'^## A worked example$(.*?)^## ', text, re.M | re.S)
    return ROW.findall(section.group(1)) if section else []


def by_model(lines):
    """The answer lines that the model has for a script."""
    words = [[int(word) if word.isdigit() else word for word in line.split()] for line in lines]
    script = Script('README', words[0][1])
    script.ask_all(words[1:])
    return [f'{line.text}: {line.expected}' for line in script.lines if line.expected is not None]


def main(player, readme):
    with open(readme, encoding='utf-8') as file:
        rows = example(file.read())
    lines = [line for line, _ in rows]
    if len(rows) < 5 or not lines[0].startswith('arena '):
        print(f'readme: no example, or a short one: {rows}')
        return 1
    written = [answer for _, answer in rows if answer]
    run = subprocess.run([player], input='\n'.join(lines) + '\n', capture_output=True, text=True, check=False)
    for who, said in (('the model', by_model(lines)), ('the player', run.stdout.split('\n')[:-1])):
        if said != written:
            print(f'readme: {who} answers {said}, written is {written}')
            return 1
    print(f'readme: {len(written)} answers, no difference')
    return 0


if __name__ == '__main__':
    if len(sys.argv) != 3:
        sys.exit(__doc__)
    sys.exit(main(*sys.argv[1:]))
