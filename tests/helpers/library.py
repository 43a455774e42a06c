"""How programs are built with the library for C, and run."""

import re
import subprocess

from .cases import TESTS, Differs

BINDINGS = TESTS.parent / "bindings"
OUT = BINDINGS / "out"
SECONDS = 1200  # a program that ends takes less on any machine

INCLUDES = [f"-I{BINDINGS}", f"-I{BINDINGS / 'c'}"]
C_FLAGS = ["-std=c11", "-D_GNU_SOURCE", "-Wall", "-Wextra", "-Werror", "-O2", "-fexceptions", *INCLUDES]
CPP_FLAGS = ["-std=c++17", "-Wall", "-Wextra", "-Werror", "-O2", *INCLUDES, f"-I{BINDINGS / 'cpp'}"]
SANITIZERS = ["-g", "-fsanitize=address,undefined", "-fno-sanitize-recover=all"]
THREAD_SANITIZER = ["-g", "-fsanitize=thread"]
WRAPS = ["-Wl,--wrap=malloc,--wrap=realloc,--wrap=calloc,--wrap=aligned_alloc"]
WRAPS_CLOCK = ["-Wl,--wrap=clock_gettime"]
WRAPS_LOCK = ["-Wl,--wrap=pthread_mutex_trylock"]

# What a sanitizer says if the addresses that the system has drawn for a program are some that the sanitizer needs itself. The program has not
# begun then, and with others it does: but not where most are so.
IN_THE_WAY = re.compile(rb"unexpected memory mapping|Shadow memory range interleaves")
BEGINNINGS = 100

# What of the library is C. Built into a program, it goes before that of the library, and so it is sanitized with the program.
SHARED = BINDINGS / "c" / "sgt_shared.c"


def run(words, seconds=SECONDS, env=None, cwd=None, also_errors=False, beginnings=BEGINNINGS):
    """What the words write, where they end well; with standard error after it, if that is wanted."""
    words = [str(word) for word in words]
    for _ in range(beginnings):
        try:
            ran = subprocess.run(words, capture_output=True, timeout=seconds, check=False, env=env, cwd=cwd)
        except subprocess.TimeoutExpired:
            raise Differs(f"{words[0]}: no end after {seconds} seconds") from None
        if not (ran.returncode and IN_THE_WAY.search(ran.stderr)):
            break
    if ran.returncode:
        raise Differs(f"{words[0]}: status {ran.returncode}: {(ran.stdout + ran.stderr).decode()[-600:]}")
    return (ran.stdout + ran.stderr if also_errors else ran.stdout).decode()


def built(scratch, compiler, flags, source, extra=(), beside=()):
    """The program that the source makes, with these beside it, and with the static library."""
    program = scratch / f"{source.stem}{abs(hash(tuple(map(str, extra)))) % 10**6}"
    run([compiler, *flags, *extra, "-o", program, source, *beside, OUT / "libsgt.a", "-lpthread"])
    return program


def compiled(scratch, compiler, flags, source, extra=()):
    """The object file that the source makes."""
    made = scratch / f"{source.stem}{abs(hash(tuple(map(str, extra)))) % 10**6}.o"
    run([compiler, *flags, *extra, "-c", "-o", made, source])
    return made


def refused(words):
    """What a compiler writes of a program that it refuses."""
    words = [str(word) for word in words]
    ran = subprocess.run(words, capture_output=True, timeout=SECONDS, check=False)
    if ran.returncode == 0:
        raise Differs(f"not refused: {words}")
    return ran.stderr.decode()


def can(scratch, compiler, flags, text="int main(void) { return 0; }", words=()):
    """Whether programs with these flags can be built and run here: the program of this text, with these words."""
    source = scratch / "nothing.c"
    source.write_text(text + "\n")
    try:
        run([compiler, *flags, "-o", scratch / "nothing", source])
        for _ in range(10):  # as it may be that it can't be run each time
            run([scratch / "nothing", *words], beginnings=1)
    except (Differs, OSError):
        return False
    return True
