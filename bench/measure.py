"""measure.py VG_BENCH VGD [ROUNDS [RUNS]]: makes the runs of the benchmark in turn, several rounds of all of them, and prints the tables."""
import collections
import os
import subprocess
import sys
import tempfile
import time

import inputs

# how many packets a worker draws at once where the cost of a handed frame is measured, so that each turn hands one over
BURST = 64


def main():
    bench, vgd = (os.path.abspath(path) for path in sys.argv[1:3])
    rounds, runs = ([int(word) for word in sys.argv[3:5]] + [8, 6][len(sys.argv) - 3:])[:2]
    processors = len(os.sched_getaffinity(0))
    with tempfile.TemporaryDirectory() as folder:
        os.chdir(folder)
        scripts = inputs.scripts()
        for name, text in scripts.items():
            with open(name, 'w') as file:
                file.write(text)
        with open('capture', 'wb') as file:
            file.write(inputs.capture())
        for name in scripts:
            compare(vgd, name)
        best = measure(bench, vgd, rounds, runs)
    print('%d processors; each figure is the best of %d runs' % (processors, rounds * runs))
    forwarding(best)
    whole(best)
    holds(best)
    frames(best)


def compare(vgd, graph):
    """Runs of several workers are lawful, and save what one worker saves: none has both handoffs and events, so where a packet goes hangs on
    no order of turns. Where no route changes that is what was worked out beside the program."""
    saved = [saved_by(vgd, graph, workers) for workers in (1, 2, 4)]
    wanted = inputs.sent() if graph in ('plain', 'handoff') else saved[0]
    if any(data != wanted for data in saved):
        sys.exit('a run of %s saves something else' % graph)


def saved_by(vgd, graph, workers):
    """What a run saves that vgd itself finds lawful."""
    with open('report', 'wb') as report:
        subprocess.run([vgd, 'run', '--hold', '--workers', str(workers), 'capture', graph, 'saved'], check=True, stdout=report)
    subprocess.run([vgd, 'check', 'capture', graph, 'saved', 'report'], check=True, stdout=subprocess.DEVNULL)
    with open('saved', 'rb') as file:
        return file.read()


def measure(bench, vgd, rounds, runs):
    """The best times in nanoseconds, by what was run: those of a whole run, and from the first turn to the last."""
    trials = [(graph, workers, how, 256) for graph in ('plain', 'handoff') for workers in (1, 2, 4) for how in ('turns', 'threads')]
    trials += [(graph, workers, 'threads', 256) for graph in ('still', 'events') for workers in range(1, 9)]
    trials += [(graph, workers, 'turns', BURST) for graph in ('plain', 'handoff') for workers in (1, 2)]
    best = collections.defaultdict(lambda: (float('inf'), float('inf')))
    for number in range(rounds):
        print('round %d of %d' % (number + 1, rounds), file=sys.stderr)
        for trial in trials:
            graph, workers, how, burst = trial
            words = [bench, 'capture', graph, str(workers), how, str(burst), str(runs)]
            times = subprocess.run(words, check=True, capture_output=True, text=True).stdout.split()
            best[trial] = tuple(min(pair) for pair in zip(best[trial], map(int, times)))
        for workers in (1, 4):
            for _ in range(runs):
                words = [vgd, 'run', '--workers', str(workers), 'capture', 'plain', 'sent']
                start = time.perf_counter_ns()
                subprocess.run(words, check=True, stdout=subprocess.DEVNULL)
                best[workers] = (min(best[workers][0], time.perf_counter_ns() - start), 0)
    return best


def forwarding(best):
    print('\nForwarding in memory, %d packets, %d routes; nanoseconds a packet' % (inputs.PACKETS, inputs.ROUTES))
    print('%-10s %7s %22s %22s %16s' % ('', '', 'workers by turns', 'workers in threads', 'packets a second'))
    print('%-10s %7s %10s %11s %10s %11s %16s' % ('graph', 'workers', 'whole run', 'turns alone', 'whole run', 'turns alone', 'of one in thread'))
    for graph in ('plain', 'handoff'):
        for workers in (1, 2, 4):
            figures = best[graph, workers, 'turns', 256] + best[graph, workers, 'threads', 256]
            times = best[graph, 1, 'threads', 256][1] / figures[3]
            print('%-10s %7d %10.0f %11.0f %10.0f %11.0f %13.2f times' % (graph, workers, *(f / inputs.PACKETS for f in figures), times))


def whole(best):
    print('\nThe whole program, file to file, workers in threads; nanoseconds a packet')
    for workers in (1, 4):
        print('%7d %10.0f' % (workers, best[workers][0] / inputs.PACKETS))


def holds(best):
    print('\nA hold of the barrier with an event that sets one route; microseconds')
    for workers in range(1, 9):
        cost = best['events', workers, 'threads', 256][1] - best['still', workers, 'threads', 256][1]
        print('%7d %10.1f' % (workers, cost / inputs.EVENTS / 1000))


def frames(best):
    # what a handoff node costs beyond a node that keeps all, and two workers beyond one
    handed = best['handoff', 2, 'turns', BURST][1] - best['handoff', 1, 'turns', BURST][1]
    plain = best['plain', 2, 'turns', BURST][1] - best['plain', 1, 'turns', BURST][1]
    print('\nA frame of some %d packets handed to another worker: %.1f microseconds' % (BURST // 2, (handed - plain) * BURST / inputs.PACKETS / 1000))


main()
