#!/usr/bin/env python3
"""Settled tables by enumeration of every path without repeats, for crates/settle_cases.

  settle_reference.py --cases      prints the lists (crates/settle_cases/stdin)
  settle_reference.py --answers    prints what crates/settle_cases must print for them
"""
import random
import sys

import cases
import reference


def delay_cost(figures):
    return sum(d for d, w in figures)


def hops_cost(figures):
    return (len(figures), -min([1000000] + [w for d, w in figures]))


def shown(name, cost):
    return '%d' % cost if name == 'delay' else '%d/%d' % (cost[0], -cost[1])


def lists():
    line = reference.line_of
    yield 'the worked diamond', cases.DIAMOND
    yield 'the diamond with a tie', [(10, 20, 1, 10, 100), (10, 30, 3, 10, 40), (20, 40, 1, 20, 100), (30, 40, 1, 20, 40)]
    yield 'the diamond without its peering', [r for r in cases.DIAMOND if r[1] != 30]
    yield 'a path that needs both classes of one AS', cases.TWO_CLASSES
    yield 'two ASes', [(7, 8, 3, 5, 40)]
    yield 'a ring of providers', [(1, 2, 1, 3, 9), (2, 3, 1, 4, 8), (3, 1, 1, 5, 7)]
    yield 'two parts', [(1, 2, 1, 3, 1), (3, 4, 3, 4, 1)]
    rng = random.Random(7)
    for k in range(120):
        n = rng.randint(2, 6)
        ases = rng.sample(range(1, 30), n)
        few = rng.choice((2, 5, 50))
        rows = []
        for i, a in enumerate(ases):
            for b in ases[i + 1:]:
                if rng.random() < 0.7:
                    rows.append((a, b, rng.choice((1, 1, 2, 2, 3)), rng.randint(1, few), rng.randint(1, few)))
        if rows:
            yield 'random %d' % k, rows


def answers(rows):
    ases = sorted({r[0] for r in rows} | {r[1] for r in rows})
    step, figures = {}, {}
    for a, b, relation, delay, width in rows:
        there, back = {1: ('down', 'up'), 2: ('up', 'down'), 3: ('flat', 'flat')}[relation]
        step[(a, b)], step[(b, a)] = (there, delay), (back, delay)
        figures[(a, b)] = figures[(b, a)] = (delay, width)
    near = reference.neighbours(ases, step)
    for name, cost_of in (('delay', delay_cost), ('hops-width', hops_cost)):
        best = {}
        for source in ases:
            for path in reference.paths_from(source, near):
                if not reference.legal(path, step):
                    continue
                there = path[1] if len(path) > 1 else source
                offer = (cost_of([figures[p] for p in zip(path, path[1:])]), there)
                for entry in ('home', 'outside'):
                    if entry == 'outside' and len(path) > 1 and step[(path[0], path[1])][0] != 'down':
                        continue
                    key = (path[-1], source, entry)
                    if key not in best or offer < best[key]:
                        best[key] = offer
        for d in ases:
            yield '%s to %d: %d' % (name, d, sum(1 for key in best if key[0] == d))
            for a in ases:
                for entry in ('home', 'outside'):
                    if (d, a, entry) in best:
                        cost, there = best[(d, a, entry)]
                        yield '%d %s %d %s' % (a, entry, there, shown(name, cost))
                    else:
                        yield '%d %s blank' % (a, entry)


for name, rows in lists():
    text = b''.join(reference.line_of(*r) for r in rows)
    if sys.argv[1:] == ['--cases']:
        sys.stdout.buffer.write(b'@ %d %s\n' % (len(text), name.encode()) + text + b'\n')
    else:
        print('@ ' + name)
        print('\n'.join(answers(rows)))
