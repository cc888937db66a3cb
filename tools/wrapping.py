"""Breaks a long line of antt where a person would: between the fields of a record, before an operator, between arguments.

Only the places are chosen here. `rt fmt` keeps breaks, sets the indentation, and lays out a record or a tuple that has one
with a line for each part."""
import re
import textwrap

ALLOWED = 160  # the widest line that `tools/bind --check` allows
WIDEST = 140  # a longer line is broken into pieces of this width
SHORTEST = 24  # a first piece shorter than this is no help to the reader
# what a break costs before an operator: the looser it binds, the less; an argument costs more, and a deeper parenthesis most
OPERATORS = {'→': 0, '×': 5, '⊎': 5, '∙': 4, '≡': 8, '≤': 9, '<': 9, '∷': 10, '++': 10, '+': 11}
ARGUMENT = 14
DEEPER = 24
KEPT_WITH_NEXT = ('let', 'λ', 'rw', '←', 'record', 'at', ':', '-', '*', '=')


class Word:
    """A word of a line: where it starts, and the starts of the brackets that are open there."""

    def __init__(self, text, start, brackets):
        self.text, self.start, self.brackets = text, start, brackets

    def depth(self):
        return len(self.brackets)


def words_of(line):
    """The words of a line. Brackets that were open before the line are not counted."""
    found, brackets = [], []
    for piece in re.finditer(r'\S+', line):
        found.append(Word(piece.group(0), piece.start(), tuple(brackets)))
        for offset, letter in enumerate(piece.group(0)):
            if letter in '({':
                brackets.append(piece.start() + offset)
            elif letter in ')}' and brackets:
                brackets.pop()
    return found


def is_record(line, bracket):
    return line[bracket] == '{' and line[:bracket].endswith('record ')


def cost_before(line, words, index):
    """What a break before this word costs the reader, or None where none may stand."""
    word, last = words[index], words[index - 1]
    bracket = word.brackets[-1] if word.brackets else None
    if bracket is not None and line[bracket] == '{':
        # a record is broken behind its brace, and then between all its fields; implicit arguments stay together
        return (word.depth() - 2) * DEEPER if is_record(line, bracket) and last.start == bracket else None
    if word.text in ('=', ':', 'in', 'at', '-', '*') or last.text in KEPT_WITH_NEXT or last.text in OPERATORS:
        return None
    if last.text == 'in':
        kind = -DEEPER
    elif word.text in OPERATORS:
        kind = OPERATORS[word.text]
    elif word.text.startswith('.'):
        kind = 3 * DEEPER
    elif last.text.endswith(',') or word.text.startswith('('):
        kind = ARGUMENT
    else:
        kind = ARGUMENT + (6 if last.text.endswith('.') else 10)
    return word.depth() * DEEPER + kind


def break_of(line, widest, indent):
    """Where to break a line, or None. Behind an `=` where that is enough; else where it costs least."""
    words, best = words_of(line), None
    for index in range(1, len(words)):
        start = words[index].start
        if start - 1 > widest or words[index - 1].text == '--':
            break  # what stands behind a comment's mark stays on its line
        if words[index - 1].text == '=' and not words[index].brackets and len(line) - start + indent <= widest:
            return start
        cost = cost_before(line, words, index)
        if cost is None or (start < indent + SHORTEST and words[index - 1].text != '{'):
            continue
        cost += (widest - start) / 10  # of two alike, the later
        if best is None or cost <= best[0]:
            best = (cost, start)
    return best and best[1]


def parts_of(line, bracket):
    """What stands behind a record's or a tuple's bracket: a piece for each part, and what comes from the closing bracket on."""
    pieces, start, depth = [], bracket + 1, 0
    for place in range(bracket, len(line)):
        depth += (line[place] in '({') - (line[place] in ')}')
        if depth == 0:
            return pieces + [line[start:place].strip(), line[place:]]
        if depth == 1 and line[place] in ';,':
            pieces.append(line[start:place + 1].strip())
            start = place + 1
    return pieces + [line[start:].strip()]


def laid_out_around(line, place):
    """The outermost record or tuple that a break at this place lies in, or None: `rt fmt` gives each of its parts a line."""
    for bracket in next((word.brackets for word in words_of(line) if word.start == place), ()):
        parts = parts_of(line, bracket)
        if is_record(line, bracket) or (line[bracket] == '(' and len(parts) > 1 and parts[0].endswith(',')):
            return bracket
    return None


def pieces_of(line, widest, indent):
    """The line in pieces of at most WIDEST characters; those behind the first begin with INDENT."""
    if len(line) <= widest:
        return [line]
    place = break_of(line, widest, len(indent))
    if place is None:
        return [line]
    bracket = laid_out_around(line, place)
    if bracket is None:
        return [line[:place].rstrip()] + pieces_of(indent + line[place:], widest, indent)
    parts = [part if part[0] in ')}' else '  ' + part for part in parts_of(line, bracket) if part]
    return [line[:bracket + 1]] + [piece for part in parts for piece in pieces_of(indent + part, widest, indent)]


def wrapped(line, widest):
    """The line in pieces of at most WIDEST characters, as far as there are places to break it."""
    indent = line[:len(line) - len(line.lstrip())]
    if line.startswith('use '):
        return [line]
    if line.lstrip().startswith('-- '):
        return textwrap.wrap(line.strip(), widest, initial_indent=indent, subsequent_indent=indent + '-- ', break_on_hyphens=False)
    # deeper than any declaration's first line; `rt fmt` takes back what is too much
    return pieces_of(line, widest, indent + '    ')
