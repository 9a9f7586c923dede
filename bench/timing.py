"""User time of programs that are run in turn."""
import resource
import subprocess

RUNS = 15
RUN_SECONDS = 0.25


def run(program, given):
    """The user time of one run, and what it wrote. A program is its path, or a list: its path and its arguments."""
    words = [program] if isinstance(program, str) else program
    before = resource.getrusage(resource.RUSAGE_CHILDREN).ru_utime
    wrote = subprocess.run(words, input=given, capture_output=True, check=True).stdout.decode()
    return resource.getrusage(resource.RUSAGE_CHILDREN).ru_utime - before, wrote


def times_for(program, given):
    """How many times take RUN_SECONDS or a little more; `given` makes the input of so many."""
    times = 1
    while run(program, given(times))[0] < RUN_SECONDS:
        times *= 2
    return times


def best(programs, givens):
    """The least user time of each on its own input, the programs in turn."""
    least = [float("inf")] * len(programs)
    for _ in range(RUNS):
        for i, program in enumerate(programs):
            least[i] = min(least[i], run(program, givens[i])[0])
    return least


def each(programs, given):
    """What one time costs each program, in seconds: many times, less none. Each has as many times as its own run needs: user time is counted in ticks, and
    where a program takes a tenth of another's time, its run would have few of them."""
    times = [times_for(program, given) for program in programs]
    many, none = best(programs, [given(n) for n in times]), best(programs, [given(0)] * len(programs))
    return [(m - n) / t for m, n, t in zip(many, none, times)]
