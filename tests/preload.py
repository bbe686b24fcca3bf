"""What the scripts share that run a program with a few lines of C preloaded."""
import concurrent.futures
import os
import subprocess
import tempfile

HERE = os.path.dirname(os.path.abspath(__file__))
SECONDS = 20


# A folder in memory, where there is one: no run waits there for a disk.
IN_MEMORY = '/dev/shm' if os.access('/dev/shm', os.W_OK) else None


class Failure(Exception):
    """What went wrong, in words."""


def run(command, text, more):
    """(exit status, standard output, standard error); the status of a run without an end is None."""
    try:
        done = subprocess.run(command, input=text, capture_output=True, timeout=SECONDS, env=dict(os.environ, **more))
    except subprocess.TimeoutExpired:
        return None, b'', b''
    return done.returncode, done.stdout, done.stderr


def library(name, folder):
    """The library that is preloaded, compiled from tests/NAME.c into a folder."""
    path = os.path.join(folder, name + '.so')
    command = ['cc', '-shared', '-fPIC', '-O1', '-o', path, os.path.join(HERE, name + '.c'), '-ldl']
    try:
        done = subprocess.run(command, capture_output=True)
    except OSError as error:
        raise Failure('%s.c: %s' % (name, error))
    if done.returncode != 0:
        raise Failure('%s.c cannot be compiled\n%s' % (name, done.stderr.decode('utf-8', 'replace')))
    return path


def is_program(words):
    """Whether the first word is a program that can be run."""
    return bool(words) and os.access(words[0], os.X_OK) and not os.path.isdir(words[0])


def refuse_each(words, judge):
    """Lets `judge` refuse a program its requests for memory; answers the exit status.

    The first of the words is the program. `judge` gets the library that is preloaded (refuse_memory.c), a folder in memory and a pool of
    threads with the program and the other words, and answers how many passed and how many failed.
    """
    if not is_program(words):
        return say_end(0, 1, 'no program %s' % (words[0] if words else ''))
    with tempfile.TemporaryDirectory(dir=IN_MEMORY) as folder, concurrent.futures.ThreadPoolExecutor(os.cpu_count() or 1) as pool:
        try:
            preloaded = library('refuse_memory', folder)
        except Failure as failure:
            return say_end(0, 1, 'FAIL %s' % failure)
        return say_end(*judge(os.path.abspath(words[0]), words[1:], preloaded, folder, pool))


def say_end(passed, failed, *said):
    """Prints what is to be said and the last line; answers the exit status."""
    for line in said:
        print(line)
    print('%d passed, %d failed' % (passed, failed))
    return 0 if failed == 0 and passed > 0 else 1
