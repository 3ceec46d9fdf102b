"""The cases of crates/lister_cases: link lists, good and faulty, each under a heading. See reference.py."""
import random
import sys

DIAMOND = [(10, 20, 1, 30, 100), (10, 30, 3, 10, 40), (20, 40, 1, 30, 100), (30, 40, 1, 20, 40)]
TWO_CLASSES = [(1, 2, 3, 1, 1), (3, 1, 1, 2, 1), (2, 3, 1, 2, 1), (2, 4, 3, 1, 1)]


def put(line, column, text):
    """The line with other bytes from a column on."""
    return line[:column - 1] + text + line[column - 1 + len(text):]


def full_list(line_of):
    """All 276 links of 24 ASes."""
    links = [(a, b) for a in range(1, 25) for b in range(a + 1, 25)]
    return b''.join(line_of(a, b, 1 + (a * b) % 3, 1 + (a * 7919 + b * 104729) % 1000000, 1 + (a * b) % 1000000) for a, b in links)


def tables(line_of):
    good = line_of(7, 8, 3, 5, 40)
    many = b''.join(line_of(1, k, 1, k, 1) for k in range(2, 25))
    yield 'the worked diamond', b''.join(line_of(*r) for r in DIAMOND)
    yield 'a path that needs both classes of one AS', b''.join(line_of(*r) for r in TWO_CLASSES)
    yield 'a tie goes to the smaller next AS', b''.join(line_of(*r) for r in [(10, 20, 1, 10, 100), (10, 30, 3, 10, 40), (20, 40, 1, 20, 100), (30, 40, 1, 20, 40)])
    yield 'no legal path without the peering', b''.join(line_of(*r) for r in DIAMOND if r[1] != 30)
    yield 'two peers', good
    yield 'the same, second AS first', line_of(8, 7, 3, 5, 40)
    yield 'relation 2 is relation 1 told from the other end', b''.join(line_of(*r) for r in [(20, 10, 2, 30, 100), (30, 10, 3, 10, 40), (40, 20, 2, 30, 100), (40, 30, 2, 20, 40)])
    yield 'an empty list', b''
    yield 'a ring of providers', b''.join(line_of(*r) for r in [(1, 2, 1, 3, 1), (2, 3, 1, 4, 1), (3, 1, 1, 5, 1)])
    yield 'two parts with no link between them', b''.join(line_of(*r) for r in [(1, 2, 1, 3, 1), (3, 4, 3, 4, 1)])
    yield 'the largest numbers', line_of(4294967294, 4294967295, 1, 1000000, 1000000)
    yield 'a full list', full_list(line_of)
    yield '51: the last byte is missing', good[:-1]
    yield '51: one byte', b' '
    yield '51: 40 bytes of a second line', good + good[:40]
    yield '51: the 41st byte is a carriage return', good[:40] + b'\r'
    yield '51: a carriage return and a line feed', good[:40] + b'\r\n'
    yield '51: a lone line feed', b'\n'
    yield '51: a line feed too many', good + b'\n'
    for column, width in ((1, 10), (11, 10), (21, 4), (25, 8), (33, 8)):
        yield '52: empty field at %d' % column, put(good, column, b' ' * width)
        yield '52: a zero before another digit at %d' % column, put(good, column, b' ' * (width - 2) + b'07')
        yield '52: zeros only at %d' % column, put(good, column, b' ' * (width - 2) + b'00')
        yield '52: a letter at %d' % column, put(good, column, b' ' * (width - 2) + b'1x')
        yield '52: a space behind at %d' % column, put(good, column, b' ' * (width - 2) + b'1 ')
        yield '52: a space between at %d' % column, put(good, column, b' ' * (width - 3) + b'1 1')
        yield '52: a sign at %d' % column, put(good, column, b' ' * (width - 2) + b'+1')
        yield '52: a tab at %d' % column, put(good, column, b'\t' * (width - 1) + b'1')
        yield '52: a line feed inside at %d' % column, put(good, column, b'\n' + b' ' * (width - 2) + b'1')
        yield '52: a high byte at %d' % column, put(good, column, b' ' * (width - 1) + b'\xb1')
    yield '53: first AS 0', put(good, 1, b'         0')
    yield '53: second AS 0', put(good, 11, b'         0')
    yield '53: first AS above the limit', put(good, 1, b'4294967296')
    yield '53: second AS above the limit', put(good, 11, b'9999999999')
    yield '54: a byte too many', full_list(line_of) + b' '
    yield '54 before a broken line', b'\n' * 11317
    yield '55: a 25th AS, first', many + line_of(25, 1, 1, 1, 1)
    yield '55: a 25th AS, second', many + line_of(1, 25, 1, 1, 1)
    yield '55: 25th and 26th', many + line_of(25, 26, 1, 1, 1)
    yield '55 before the relation of its line', many + put(line_of(1, 25, 1, 1, 1), 21, b'   x')
    yield '52 before the 25th AS behind it', many + put(line_of(1, 25, 1, 1, 1), 1, b'         x')
    yield '53 before the 25th AS behind it', many + put(line_of(1, 25, 1, 1, 1), 1, b'         0')
    yield '24 ASes are taken', many
    yield '12: both ends one AS', line_of(7, 7, 3, 5, 40)
    yield '12 before 13', line_of(7, 7, 4, 0, 0)
    yield '13: relation 0', line_of(7, 8, 0, 5, 40)
    yield '13: relation 4', line_of(7, 8, 4, 5, 40)
    yield '13: relation 9999', line_of(7, 8, 9999, 5, 40)
    yield '13 before 14', line_of(7, 8, 4, 0, 40)
    yield '14: delay 0', line_of(7, 8, 3, 0, 40)
    yield '14: delay 1000001', line_of(7, 8, 3, 1000001, 40)
    yield '14 before 15', line_of(7, 8, 3, 0, 0)
    yield '15: width 0', line_of(7, 8, 3, 5, 0)
    yield '15: width 1000001', line_of(7, 8, 3, 5, 1000001)
    yield 'delay and width 1', line_of(7, 8, 3, 1, 1)
    yield 'delay and width 1000000', line_of(7, 8, 3, 1000000, 1000000)
    yield '16: the pair again', good + good
    yield '16: the pair again, the other way round', good + line_of(8, 7, 1, 5, 40)
    yield '15 before 16', good + line_of(8, 7, 1, 5, 0)
    yield '16 before a fault of a later line', good + good + line_of(7, 8, 4, 5, 40)
    yield 'a form fault of line 3 before the link fault of line 1', line_of(7, 8, 4, 5, 40) + good + put(good, 33, b'       x')
    yield '51 of line 2 before the link fault of line 1', line_of(7, 8, 4, 5, 40) + b' '
    yield '52 on line 2 before 53 on line 3', good + put(good, 21, b'   x') + put(good, 1, b'         0')
    yield '53 on line 2 before 52 on line 3', good + put(good, 1, b'         0') + put(good, 21, b'   x')
    yield '52 of the relation before 53 of the delay', put(put(good, 21, b'   x'), 25, b'       x')
    yield '51 before 52', put(good, 1, b'         x')[:40] + b'x'


def random_list(rng, line_of, most):
    n = rng.randint(2, most)
    ases = rng.sample(range(1, 40), n) if rng.random() < 0.7 else rng.sample(range(1, 4294967296), n)
    pairs = [(a, b) for a in ases for b in ases if a < b]
    few = rng.choice((3, 9, 1000000))
    chosen = [p for p in pairs if rng.random() < rng.choice((0.4, 0.7, 1.0))] or pairs[:1]
    rng.shuffle(chosen)
    lines = []
    for a, b in chosen:
        if rng.random() < 0.5:
            a, b = b, a
        lines.append(line_of(a, b, rng.choice((1, 1, 2, 2, 3)), rng.randint(1, few), rng.randint(1, 1000000)))
    return b''.join(lines)


def spoiled(rng, text):
    """The list with one byte or one line changed."""
    if not text or rng.random() < 0.3:
        return text
    text = bytearray(text)
    kind = rng.randint(0, 3)
    at = rng.randrange(len(text))
    if kind == 0:
        text[at] = rng.choice(b' 0123456789x\n-')
    elif kind == 1:
        del text[at]
    elif kind == 2:
        line = at // 41 * 41
        text += text[line:line + 41]
    else:
        text.insert(at, rng.choice(b' 0159\n'))
    return bytes(text)


def all_cases(line_of):
    yield from tables(line_of)
    rng = random.Random(20261118)
    for k in range(60):
        yield 'random list %d' % k, random_list(rng, line_of, 6)
    for k in range(60):
        yield 'spoiled list %d' % k, spoiled(rng, random_list(rng, line_of, 5))


def main(word, listed, line_of):
    """A case is a heading, `@ LENGTH NAME`, and then LENGTH bytes and a line feed."""
    out = sys.stdout.buffer
    for name, text in all_cases(line_of):
        if word == '--cases':
            out.write(b'@ %d %s\n' % (len(text), name.encode()) + text + b'\n')
        else:
            out.write(b'@ %s\n' % name.encode() + listed(text))
