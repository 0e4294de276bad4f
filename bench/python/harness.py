"""What the Python programs share: the works of a folder, the clock, and what is told."""
import os
import sys
import time

LEAST_ROUNDS, MOST_ROUNDS, FEWEST_ROUNDS = 31, 201, 5
# nanoseconds
LEAST_SAMPLE, WARM, USUAL, MOST = 20e3, 10e6, 120e6, 1000e6

mode, folder, library = sys.argv[1:4] if len(sys.argv) > 3 else ('ask', '', '')


class Work:
    def __init__(self, line):
        self.kind, self.name, *numbers = line.split()
        self.radius, self.inner, self.edge, self.passes, self.bound, self.width, self.height = map(int, numbers)
        self.n = self.width * self.height
        self.taps = [self.edge, *[self.inner] * (2 * self.radius + 1), self.edge]
        self.divisor = sum(self.taps) ** self.passes

    def path(self, ending):
        return os.path.join(folder, f'{self.name}.{ending}')


def works():
    with open(os.path.join(folder, 'works'), encoding='utf-8') as lines:
        return [Work(line) for line in lines]


def sample(run, calls):
    """Nanoseconds a call, by so many calls in a row."""
    start = time.perf_counter_ns()
    for _ in range(calls):
        run()
    return (time.perf_counter_ns() - start) / calls


def warmed(run):
    """Calls in a row that take as long as a sample is to take at least; a program is warm after this."""
    start, calls = time.perf_counter_ns(), 1
    while True:
        each = sample(run, calls)
        if time.perf_counter_ns() - start >= WARM:
            return max(1, int(LEAST_SAMPLE / each) + 1) if each < LEAST_SAMPLE else 1
        if each * calls < LEAST_SAMPLE:
            calls *= 2


def enough(rounds, programs, spent):
    if rounds >= MOST_ROUNDS or (rounds >= FEWEST_ROUNDS and spent > MOST * programs):
        return True
    return rounds >= LEAST_ROUNDS and spent > USUAL * programs


def timed(work, measure, cells, programs):
    calls = [warmed(run) for _, run in programs]
    taken = [[] for _ in programs]
    start, rounds = time.perf_counter_ns(), 0
    while not enough(rounds, len(programs), time.perf_counter_ns() - start):
        for (_, run), times, each in zip(programs, taken, calls):
            times.append(sample(run, each))
        rounds += 1
    for (name, _), times in zip(programs, taken):
        print('figure', work.name, measure, name, cells, *[f'{each:.2f}' for each in times], flush=True)


def measured(work, measure, cells, programs, saved):
    """Times the programs in turns, unless the run is a check; then saves what each gives."""
    if mode == 'time' and programs:
        timed(work, measure, cells, programs)
    for name, run in programs:
        saved(name, run()).tofile(work.path(f'{measure}.{name}'))
