"""The workloads of bench/ with a generator for each process and a deque for each channel, for comparison.

    pypy3 beside.py WORKLOAD SIZE      pipeline, sample, pipelines or arithmetic
"""
import collections
import itertools
import sys

DRY = object()


def count(w, n):
    for i in range(n):
        w.append(i)
        if i % 1000 == 999:
            yield


def copy(u, w):
    while True:
        while u:
            w.append(u.popleft())
        yield


def f(u, v, w, n):
    printed = []
    for it in itertools.islice(itertools.cycle((u, v)), n):
        while not it:
            yield
        printed.append(it.popleft())
        w.append(printed[-1])
    print("print 1 f:", *printed)


def g(u, v, w):
    for it in itertools.cycle((v, w)):
        while not u:
            yield
        it.append(u.popleft())


def h(u, v, initial):
    v.append(initial)
    yield from copy(u, v)


def total(w, n):
    s = 0
    for i in range(n):
        s = (s * 31 + i) % 1000003
    w.append(s)
    yield


def run(processes):
    """The processes in turn until none has anything to do: until the first ones ended, and then once more."""
    ending = [it for it in processes if it.__name__ in ("count", "f", "total")]
    while ending:
        for it in processes:
            if next(it, DRY) is DRY and it in ending:
                ending.remove(it)
        processes = [it for it in processes if it.gi_frame is not None]
    for it in processes:
        next(it, DRY)


def main(workload, size):
    n, channel = int(size), collections.deque
    x, y, z, t1, t2, w = (channel() for _ in range(6))
    pairs = [(channel(), channel()) for _ in range(64)]
    processes, told = {
        "pipeline": ([count(x, n), copy(x, y), copy(y, z), copy(z, w)], [w]),
        "sample": ([f(y, z, x, n), g(x, t1, t2), h(t1, y, 0), h(t2, z, 1)], []),
        "pipelines": ([it for u, to in pairs for it in (count(u, n), copy(u, to))], [to for _, to in pairs]),
        "arithmetic": ([total(w, n)], [w]),
    }[workload]
    run(processes)
    for k, to in enumerate(told):
        print(f"W{k if told[1:] else ''}:", *to)


if __name__ == "__main__":
    main(*sys.argv[1:])
