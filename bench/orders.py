#!/usr/bin/env python3
"""orders.py TOOL [COUNT [SEED]]: random sets of logs, right and wrong, judged by `TOOL order`: COUNT small ones, and by a search of the
definition, all ways to put messages at positions, without repeats, of which the deliveries of each log are the piece that it says; and
a tenth as many large ones in which one line is put wrong, which has to be named.

orders.py TOOL --speed [N]: N deliveries (1,000,000) of five logs, judged by TOOL and by a plain checker in Python: seconds and memory."""
import itertools
import os
import random
import subprocess
import sys
import tempfile
import time

FREE = None


def lines_of(rng, order, broadcasts, wrong):
    """A log of one process: a piece of the order, now and then with a snapshot, a crash, a restart or a mistake."""
    at, lines, far = 0, [], len(order)
    if rng.random() < .3:
        at = rng.randrange(far + 1)
        lines.append(f'from {at}')
    todo = list(broadcasts)
    while at < far and rng.random() < .9:
        if todo and rng.random() < .5:
            lines.append(f'broadcast {todo.pop(0)}')
        word = order[at]
        if wrong and rng.random() < .12:
            word = rng.choice(order)
        lines.append(f'deliver {word}')
        at += 1
        if rng.random() < .3:
            lines.append(f'state s{at if not wrong or rng.random() < .9 else at + 1}')
        if rng.random() < .1:
            lines.append('crash')
            if rng.random() < .7:
                at = rng.randrange(at + 1)
                lines.append(f'restart {at}')
            else:
                break
        if rng.random() < .1 and at < far:
            at = rng.randrange(at, far + 1)
            lines.append(f'from {at}')
        if wrong and rng.random() < .05 and at > 0:
            lines.append(f'from {rng.randrange(at)}')
            break
    down = bool(lines) and lines[-1] == 'crash'
    if not down:
        lines += [f'broadcast {m}' for m in todo if not wrong or rng.random() < .8]
    if rng.random() < .7:
        lines.append('end')
    return lines


def facts(log):
    at, out, whole = 0, [], False
    for line in log:
        word, _, rest = line.partition(' ')
        if word == 'deliver':
            out.append(('deliver', at, rest))
            at += 1
        elif word == 'state':
            out.append(('state', at, rest))
        elif word == 'broadcast':
            out.append(('broadcast', at, rest))
        elif word == 'from':
            out.append(('from', at, int(rest)))
            at = int(rest)
        elif word == 'restart':
            at = int(rest)
        elif word == 'end':
            whole = True
    return out, whole


def judged(logs):
    """0 accepted, 1 refused, 6 incomplete: by the definition."""
    said = [facts(log) for log in logs]
    all_facts = [f for out, _ in said for f in out]
    delivered = [(p, x) for k, p, x in all_facts if k == 'deliver']
    states = {}
    for k, p, x in all_facts:
        if k == 'from' and x < p:
            return 1
        if k == 'state' and states.setdefault(p, x) != x:
            return 1
    words = sorted({x for _, x in delivered})
    top = max([p for p, _ in delivered], default=-1) + 1
    for order in itertools.product(words + [FREE], repeat=top):
        named = [x for x in order if x is not FREE]
        if len(named) == len(set(named)) and all(order[p] == x for p, x in delivered):
            break
    else:
        return 1
    sent = {x for k, _, x in all_facts if k == 'broadcast'}
    if all(x in sent for x in words):
        return 0
    return 1 if all(whole for _, whole in said) else 6


def written(folder, logs):
    names = []
    for i, log in enumerate(logs):
        names.append(os.path.join(folder, f'{i}.log'))
        with open(names[-1], 'w') as f:
            f.write(''.join(line + '\n' for line in log))
    return names


def fault_of_small(tool, rng, tally):
    n = rng.randrange(1, 6)
    order = [f'm{i}' for i in rng.sample(range(1, 9), n)]
    wrong = rng.random() < .6
    owners = [[] for _ in range(rng.randrange(1, 4))]
    for m in rng.sample(order, n):
        rng.choice(owners).append(m)
    logs = [lines_of(rng, order, mine, wrong) for mine in owners]
    with tempfile.TemporaryDirectory() as folder:
        got = subprocess.run([tool, 'order', *written(folder, logs)], capture_output=True, text=True)
    want = judged(logs)
    tally[want] = tally.get(want, 0) + 1
    if got.returncode == want:
        return None
    return f'status {got.returncode}, by the definition {want}\n{got.stdout}{got.stderr}' + '\n---\n'.join('\n'.join(log) for log in logs)


def fault_of_large(tool, rng, tally):
    """Log 0 delivers all; what is put wrong stands in another, or is a broadcast that is left out."""
    n, count = rng.randrange(100, 3000), rng.randrange(2, 6)
    order = [f'm{i}' for i in rng.sample(range(10 * n), n)]
    logs = [[f'broadcast {m}' for m in order[i::count]] for i in range(count)]
    places = []
    for i, log in enumerate(logs):
        at = 0 if i == 0 or rng.random() < .5 else rng.randrange(n)
        if at:
            log.append(f'from {at}')
        while at < n and (i == 0 or rng.random() < .9995):
            log.append(f'deliver {order[at]}')
            at += 1
            if i:
                places.append((i, len(log), at))
            if rng.random() < .01:
                log.append(f'state {at * 7919 % 10007}')
            if i and rng.random() < .005:
                at = rng.randrange(max(0, at - 50), at + 1)
                log += ['crash', f'restart {at}']
        log.append('end')
    kind, named, want = rng.choice(['none', 'other', 'again', 'state', 'back', 'unsent', 'open']), None, 1
    if kind in ('none', 'unsent', 'open') or not places:
        want = {'unsent': 1, 'open': 6}.get(kind, 0)
        if want:
            lost = rng.randrange(n)
            logs[lost % count].remove(f'broadcast {order[lost]}')
            named = (0, logs[0].index(f'deliver {order[lost]}') + 1)
        if kind == 'open':
            logs[-1].pop()
    else:
        i, line, at = rng.choice(places)
        if kind in ('other', 'again'):
            logs[i][line - 1] = 'deliver ' + ('new' if kind == 'other' or n == 1 else order[(at + rng.randrange(n - 1)) % n])
        else:
            line += 1
            logs[0].insert(logs[0].index(f'deliver {order[at - 1]}') + 1, f'state {at * 7919 % 10007}')
            logs[i].insert(line - 1, 'state wrong' if kind == 'state' else f'from {at - 1}')
        named = (i, line)
    with tempfile.TemporaryDirectory() as folder:
        names = written(folder, logs)
        got = subprocess.run([tool, 'order', *names], capture_output=True, text=True)
    tally[want] = tally.get(want, 0) + 1
    if got.returncode == want and (named is None or f'{named[0]}.log line {named[1]}:' in got.stderr):
        return None
    return f'{kind}: status {got.returncode}, wanted {want} at {named}\n{got.stdout}{got.stderr}'


def plain(names):
    """A checker as one writes it in Python: whether the logs are accepted."""
    order, placed, sent, states = {}, {}, set(), {}
    for name in names:
        at = 0
        with open(name) as f:
            for line in f:
                word, _, rest = line.rstrip('\n').partition(' ')
                if word == 'deliver':
                    if order.setdefault(at, rest) != rest or placed.setdefault(rest, at) != at:
                        return False
                    at += 1
                elif word == 'broadcast':
                    sent.add(rest)
                elif word == 'state' and states.setdefault(at, rest) != rest:
                    return False
    return all(m in sent for m in order.values())


def speed(tool, deliveries):
    n = deliveries // 5
    order = [f'{i * 7919 % n:x}-{i:08x}' for i in range(n)]
    with tempfile.TemporaryDirectory() as folder:
        names = written(folder, [[f'broadcast {m}' for m in order[i::5]] + [f'deliver {m}' for m in order] + ['end'] for i in range(5)])
        size = sum(os.path.getsize(name) for name in names)
        begin = time.perf_counter()
        got = subprocess.run(['/usr/bin/env', 'python3', '-c', 'import resource,subprocess,sys; r = subprocess.run(sys.argv[1:]).returncode; '
                              'u = resource.getrusage(resource.RUSAGE_CHILDREN); print(u.ru_utime + u.ru_stime, u.ru_maxrss, r)',
                              tool, 'order', *names], capture_output=True, text=True)
        wall = time.perf_counter() - begin
        seconds, memory, status = got.stdout.split()[-3:]
        begin = time.perf_counter()
        is_accepted = plain(names)
        python = time.perf_counter() - begin
    print(f'{deliveries} deliveries of five logs, {size} bytes: status {status}, {float(seconds):.2f} s of a processor ({wall:.2f} s in all), '
          f'{int(memory) // 1024} MiB; in Python {python:.2f} s ({"accepted" if is_accepted else "refused"})')


def main():
    tool = os.path.abspath(sys.argv[1])
    if sys.argv[2:3] == ['--speed']:
        speed(tool, int((sys.argv + ['1000000'])[3]))
        return 0
    count, seed = int((sys.argv + ['1000'])[2]), int((sys.argv + ['1000', '1'])[3])
    rng, small, large = random.Random(seed), {}, {}
    for case in range(count):
        fault = fault_of_small(tool, rng, small) or (fault_of_large(tool, rng, large) if case % 10 == 0 else None)
        if fault:
            print(f'case {case} of seed {seed}: {fault}')
            return 1
    for tally, name in ((small, 'small sets agree with the definition'), (large, 'large ones with what was put wrong')):
        print(f'{sum(tally.values())} {name}: ' + ', '.join(f'{n} with status {s}' for s, n in sorted(tally.items())))
    return 0


if __name__ == '__main__':
    sys.exit(main())
