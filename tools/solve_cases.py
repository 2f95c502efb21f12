#!/usr/bin/env python3
"""Write the cases of crates/solve_cases: solve_cases.py SOLVE_TXT

SOLVE_TXT holds worked answers, a record a case: `# name`, `Q` the question's words, `R` refusal, lines, open lines, steps, and where the refusal
is 0 `A` the answer's words up to the end of its last line; `0*500` is 500 zeros. Written are stdin, to a line the lengths of the work and the
answer slice and a question, and stdout, the numbers of `R`, what the work slice holds, the words of `A` and what the answer slice holds from
there on: the zeros, and the words then that are as they were lent. The shortest question of each outcome is asked with slices that are just
long enough and with longer ones, and one question with a slice that is too short.
"""
import os, sys

ROOM, LONG = 16384, (16500, 17000)

def words(text):
    for part in text.split():
        word, _, times = part.partition('*')
        yield from [word] * int(times or 1)

def worked(path):
    cases = []
    for line in open(path):
        if line[0] == 'Q': question = list(words(line[1:]))
        if line[0] == 'R': cases.append((question, list(words(line[1:])), []))
        if line[0] == 'A': cases[-1][2].extend(words(line[1:]))
    return cases

# A refusal's number; or none, all solved, some open.
def outcome(numbers):
    refusal, lines, opens, _ = map(int, numbers)
    return refusal, lines > 0, opens > 0

def shortest_of_each(cases):
    shortest = {}
    for case in sorted(cases, key=lambda case: len(case[0])): shortest.setdefault(outcome(case[1]), case)
    return list(shortest.values())

def line(*groups): return ''.join(f'{w} ' for group in groups for w in group) + '\n'

def expected(work, answer, numbers, words):
    touched = ROOM if not 1 <= int(numbers[0]) <= 6 else 0
    return line(numbers, ['work', touched, work - touched], ['answer'], words, [touched - len(words), answer - touched])

cases = shortest_of_each(worked(sys.argv[1]))
asked = [(ROOM, ROOM, case) for case in cases] + [(*LONG, case) for case in cases]
question, _, _ = cases[0]
asked += [(work, answer, (question, ['1', '0', '0', '0'], [])) for work, answer in [(ROOM - 1, LONG[1]), (LONG[0], ROOM - 1)]]

here = os.path.join(os.path.dirname(os.path.abspath(__file__)), '..', 'crates', 'solve_cases')
with open(os.path.join(here, 'stdin'), 'w') as questions, open(os.path.join(here, 'stdout'), 'w') as answers:
    for work, answer, (question, numbers, words) in asked:
        questions.write(line([work, answer], question))
        answers.write(expected(work, answer, numbers, words))
