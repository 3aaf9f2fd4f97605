"""Runs the tasks of a run side by side, in place of `in_lanes` of `rt`, which gives each a single processor where their number is fixed."""

from concurrent.futures import FIRST_COMPLETED, ThreadPoolExecutor, wait


def run(tasks, processors):
    """Runs each task once those that it waits for have ended, first those with the longest chain of others behind them, and returns what each gave. A task is
    what it waits for, its work in lines, its memory, and a call that gets what was given and how many jobs it may use. The processors that are free go to
    the tasks that can begin, by the length of these chains, and at least one to each: all else waits for the first proofs, so that they get most. (The
    crates take so little memory that this bounds it too.)"""
    behind = dict.fromkeys(tasks, 0)
    # (a task comes after those that it waits for)
    for key in reversed([*tasks]):
        behind[key] += tasks[key][1]
        for it in tasks[key][0]:
            behind[it] = max(behind[it], behind[key])
    left, running, given = sorted(tasks, key=lambda it: -behind[it]), {}, {}
    with ThreadPoolExecutor(processors) as pool:
        while left or running:
            ready = [it for it in left if all(below in given for below in tasks[it][0])]
            for at, key in enumerate(ready):
                idle = processors - sum(jobs for _, jobs in running.values())
                if idle > 0:
                    left.remove(key)
                    chains = sum(behind[it] for it in ready[at:] if tasks[it][1])
                    jobs = max(1, round(idle * behind[key] / chains)) if tasks[key][1] else 1
                    running[pool.submit(tasks[key][3], given, jobs)] = key, jobs
            for it in wait(running, return_when=FIRST_COMPLETED).done:
                given[running.pop(it)[0]] = it.result()
    return given
