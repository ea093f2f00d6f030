# Times the whole job on a script by the edge engine and the pixel engine of target/bin/bench (E or P before the script), and by the C programs target/bench-edges
# and target/bench-job, in turns. Prints the least CPU time of a run of each (user and system), in milliseconds, less the least of a start, which is a run on
# the empty script: edge engine, C by edges, pixel engine, C by pixels. Short runs are taken again and again in a turn. All have to print the same, at each run.
# bench/cpu.py RUNS SCRIPT
import os, sys, tempfile

TURN = 0.1  # seconds of CPU time that a turn takes at least

programs = [("target/bin/bench", b"E"), ("target/bench-edges", b""), ("target/bin/bench", b"P"), ("target/bench-job", b"")]


def file_of(content):
    file = tempfile.TemporaryFile()
    file.write(content)
    file.flush()
    return file


output = file_of(b"")


# the CPU time of one run, in seconds, and what it printed
def run(program, file):
    file.seek(0)
    output.seek(0)
    output.truncate()
    to = [(os.POSIX_SPAWN_DUP2, file.fileno(), 0), (os.POSIX_SPAWN_DUP2, output.fileno(), 1)]
    _, status, used = os.wait4(os.posix_spawn(program, [program], {}, file_actions=to), 0)
    if os.WIFSIGNALED(status):
        sys.exit(f"{program}: killed by signal {os.WTERMSIG(status)}")
    output.seek(0)
    return used.ru_utime + used.ru_stime, output.read()


runs, script = int(sys.argv[1]), open(sys.argv[2], "rb").read()
inputs = [(file_of(letter), file_of(letter + script)) for _, letter in programs]
starts, jobs = [[] for _ in programs], [[] for _ in programs]
printed = {}
for turn in range(runs):
    for (program, _), files, start, job in zip(programs, inputs, starts, jobs):
        spent = 0
        while spent < TURN:
            for file, times in zip(files, (start, job)):
                time, text = run(program, file)
                if printed.setdefault(times is job, text) != text:
                    sys.exit(f"{program}: the outputs differ")
                times.append(time)
                spent += time
print(*(f"{1000 * (min(job) - min(start)):.3f}" for start, job in zip(starts, jobs)))
