#!/usr/bin/env python3
"""An independent route lister, for tests: it enumerates every path without repeats, keeps the legal ones, and takes the least.

  reference.py < LIST            prints what the lister must print for a link list
  reference.py --cases           prints the cases for crates/lister_cases/stdin, made from the tables below and a fixed seed
  reference.py --answers          prints what crates/lister_cases must print for them

It shares no code and no method with the product: paths are enumerated one by one and judged by the rule in docs/RULES.md
(every AS neither first nor last has a customer before or after it). It is slow, and meant for networks of up to about eight ASes;
larger ones (a full list) go by a fixed-point iteration over (AS, class), which is tested against the enumeration.
"""
import random
import sys

UP, DOWN, FLAT = 'up', 'down', 'flat'
WIDTHS = [('first', 10, 1), ('second', 10, 11), ('relation', 4, 21), ('delay', 8, 25), ('width', 8, 33)]


class Fault(Exception):
    def __init__(self, number, line, column, layer):
        self.row = (number, line, column, layer)


def field(raw, column, line, is_as):
    digits = raw.lstrip(b' ')
    if not digits or not all(48 <= b <= 57 for b in digits) or (len(digits) > 1 and digits[:1] == b'0'):
        raise Fault(52, line, column, 1)
    number = int(digits)
    if number > 4294967295 or (is_as and number == 0):
        raise Fault(53, line, column, 1)
    return number


def parse(text):
    """The roster and the raw lines, after the first pass."""
    if len(text) > 11316:
        raise Fault(54, 0, 0, 1)
    ases, lines, at, line = set(), [], 0, 0
    while at < len(text):
        line += 1
        if len(text) - at < 41 or text[at + 40] != 10:
            raise Fault(51, line, 0, 1)
        row = []
        for name, width, column in WIDTHS:
            is_as = name in ('first', 'second')
            number = field(text[at:at + width], column, line, is_as)
            if is_as and number not in ases:
                if len(ases) == 24:
                    raise Fault(55, line, column, 1)
                ases.add(number)
            row.append(number)
            at += width
        at += 1
        lines.append(row)
    return sorted(ases), lines


def enter(lines):
    """The links: (a, b) -> (step from a to b, delay)."""
    step = {}
    for line, (a, b, relation, delay, width) in enumerate(lines, 1):
        if a == b:
            raise Fault(12, line, 0, 2)
        if not 1 <= relation <= 3:
            raise Fault(13, line, 21, 2)
        if not 1 <= delay <= 1000000:
            raise Fault(14, line, 25, 2)
        if not 1 <= width <= 1000000:
            raise Fault(15, line, 33, 2)
        if (a, b) in step:
            raise Fault(16, line, 0, 3)
        there, back = {1: (DOWN, UP), 2: (UP, DOWN), 3: (FLAT, FLAT)}[relation]
        step[(a, b)] = (there, delay)
        step[(b, a)] = (back, delay)
    return step


def legal(path, step):
    for before, here, after in zip(path, path[1:], path[2:]):
        if step[(here, before)][0] != DOWN and step[(here, after)][0] != DOWN:
            return False
    return True


def paths_from(source, near):
    """Every path without repeats that begins at source."""
    stack = [[source]]
    while stack:
        path = stack.pop()
        yield path
        for b in near[path[-1]]:
            if b not in path:
                stack.append(path + [b])


def neighbours(ases, step):
    near = {a: [] for a in ases}
    for a, b in step:
        near[a].append(b)
    return near


def best_by_enumeration(ases, step):
    """best[(source, home?, destination)] = (cost, next AS)"""
    best, near = {}, neighbours(ases, step)
    for source in ases:
        for path in paths_from(source, near):
            if len(path) < 2 or not legal(path, step):
                continue
            offer = (sum(step[(a, b)][1] for a, b in zip(path, path[1:])), path[1])
            for home in (True, False):
                if not home and step[(path[0], path[1])][0] != DOWN:
                    continue
                key = (source, home, path[-1])
                if key not in best or offer < best[key]:
                    best[key] = offer
    return best


def after_step(home, way):
    """Whether traffic is at home after a step; None where it may not take it."""
    if way == DOWN:
        return False
    if not home:
        return None
    return way == UP


def best_by_iteration(ases, step):
    best = {}
    for d in ases:
        cost = {(d, True): 0, (d, False): 0}
        changed = True
        while changed:
            changed = False
            for (a, b), (way, delay) in step.items():
                if a == d:
                    continue
                for home in (True, False):
                    then = after_step(home, way)
                    if then is None or (b, then) not in cost:
                        continue
                    offer = cost[(b, then)] + delay
                    if (a, home) not in cost or offer < cost[(a, home)]:
                        cost[(a, home)] = offer
                        changed = True
        for a in ases:
            if a == d:
                continue
            for home in (True, False):
                if (a, home) not in cost:
                    continue
                nexts = [b for (x, b), (way, delay) in step.items()
                         if x == a and after_step(home, way) is not None and (b, after_step(home, way)) in cost
                         and cost[(b, after_step(home, way))] + delay == cost[(a, home)]]
                best[(a, home, d)] = (cost[(a, home)], min(nexts))
    return best


def links_walked(source, destination, best, step):
    here, home, links = source, True, 0
    while here != destination:
        there = best[(here, home, destination)][1]
        home = after_step(home, step[(here, there)][0])
        here, links = there, links + 1
    return links


def listed(text):
    try:
        ases, lines = parse(text)
        step = enter(lines)
    except Fault as fault:
        return b''.join(b'%10d' % n for n in fault.row) + b'\n'
    few = len(ases) <= 7
    best = best_by_enumeration(ases, step) if few else best_by_iteration(ases, step)
    if few and best != best_by_iteration(ases, step):
        sys.exit('the two references differ')
    out = []
    for s in ases:
        for d in ases:
            if s == d:
                continue
            row = (s, d, 0, 0, 0)
            if (s, True, d) in best:
                cost, there = best[(s, True, d)]
                row = (s, d, there, links_walked(s, d, best, step), cost)
            out.append(b''.join(b'%10d' % n for n in row) + b'\n')
    return b''.join(out)


def line_of(a, b, relation, delay, width):
    return b'%10d%10d%4d%8d%8d\n' % (a, b, relation, delay, width)


if __name__ == '__main__':
    if sys.argv[1:] == []:
        sys.stdout.buffer.write(listed(sys.stdin.buffer.read()))
    elif sys.argv[1:] == ['--cases'] or sys.argv[1:] == ['--answers']:
        import cases
        cases.main(sys.argv[1], listed, line_of)
    else:
        sys.exit(__doc__)
