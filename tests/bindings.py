#!/usr/bin/env python3
"""Calls the library from other languages.

    tests/bindings.py
    tests/bindings.py behind-ci

It makes the library by `bindings/build`, which proves `crates/sgt_c` first unless its `out/` is up to date. After `rt ci`, with
`behind-ci`, it uses the crates that were just proved. Each example of `bindings` is built and run if its compiler is installed, and
its output is compared. Each case is reported, also what was left out since a program is missing. The last line counts the cases.
"""

import contextlib
import copy
import ctypes
import os
import pathlib
import pickle
import random
import re
import shutil
import signal
import sys
import tempfile
import threading
import time
from collections import Counter

sys.dont_write_bytecode = True
from helpers.cases import C_SOURCES, TESTS, Differs, same, run_cases  # noqa: E402
from helpers.library import BINDINGS, C_FLAGS, CPP_FLAGS, OUT, SANITIZERS, WRAPS, built, can, refused, run  # noqa: E402
from helpers.package import SOON, Interrupted, elsewhere, interrupted, interrupted_beside, interrupts, module, refusal, what  # noqa: E402

TOP = TESTS.parent
STORY = (BINDINGS / "bank.out").read_text()
TRANSFERS = (BINDINGS / "transfers.out").read_text()
BUILD_SECONDS = 3600

# The output of the examples with threads: in C, and in the other languages.
MONEY = "80000 calls, 4000 of 4000\n"
LEFT = "4000 of 4000, 0 entries\n"

# What is said of something else in place of a procedure.
A_PROCEDURE = 'a procedure is a list in the list of procedures, as [[0,[["answer",7]]]]'


def makes_the_library(_):
    run([BINDINGS / "build", *sys.argv[1:]], seconds=BUILD_SECONDS)
    names = [line.split()[-1] for line in run(["nm", "-D", "--defined-only", OUT / "libsgt.so"]).splitlines()]
    seen = {name.partition("@")[0] for name in names if not name.startswith("SGT_")}
    same("names of libsgt.so that are not the headers'", [], sorted(seen - declared()))
    same("names of the headers that libsgt.so has not", [], sorted(declared() - seen))
    same("names without the version", [], [name for name in names if not name.endswith(f"SGT_{minor_version()}")])
    same("the soname", True, f"[libsgt.so.{minor_version()}]" in run(["readelf", "-d", OUT / "libsgt.so"]))


def declared():
    """Returns the functions that the headers declare."""
    lines = [line for header in ("sgt.h", "c/sgt_shared.h") for line in (BINDINGS / header).read_text().splitlines()]
    heads = ("uint32_t sgt_", "void sgt_", "const char *sgt_")
    return {line.split("(")[0].split()[-1].lstrip("*") for line in lines if line.startswith(heads)}


def has_the_structs_and_calls_of_its_version(_):
    """What programs were built with is as `abi.txt` has it. Where that changes, the minor number counts up, and so the
    soname."""
    stored = (BINDINGS / "abi.txt").read_text().splitlines()
    made = run([sys.executable, BINDINGS / "abi.py"]).splitlines()
    same("the version of bindings/abi.txt, which bindings/abi.py writes", f"version {minor_version()}", stored[0])
    same("what has changed, so that the minor number counts up", [], [line for line in stored if line not in made])
    same("what bindings/abi.txt lacks", [], [line for line in made if line not in stored])
    calls = [line for line in stored if line.startswith("call ") and "typedef" not in line]
    same("the calls in it", declared(), {re.search(r"sgt_\w+(?=\()", line)[0] for line in calls})
    return f"{len(stored)} lines"


def structs_of_c():
    """The structs of the headers: of each the size, and the names, places and sizes of its fields."""
    structs = {}
    for name, size, fields in re.findall(r"^struct sgt_(\w+) (\d+): (.*)$", (BINDINGS / "abi.txt").read_text(), re.M):
        structs[name] = int(size), [(it[0], *map(int, it[1:])) for it in map(str.split, fields.split(", "))]
    return structs


def has_the_structs_of_c_in_python(_):
    module()
    from sgt import _library

    structs = structs_of_c()
    for name, (size, fields) in structs.items():
        it = getattr(_library, "C" + "".join(map(str.title, name.split("_"))))
        same(f"the size of {name}", size, ctypes.sizeof(it))
        places = [(field, getattr(it, field).offset, getattr(it, field).size) for field, _ in it._fields_]
        same(f"the fields of {name}", fields, places)
    return f"{len(structs)} structs"


RUST_PLACES = """
macro_rules! field {
    ($it:expr, $field:ident) => {{
        let it = $it.as_ptr();
        let (field, rest) = unsafe { (std::ptr::addr_of!((*it).$field), std::mem::size_of_val(&(*it).$field)) };
        print!(" {} {} {},", stringify!($field), field as usize - it as usize, rest)
    }};
}
fn main() {
"""


def has_the_structs_of_c_in_rust(scratch):
    if not shutil.which("rustc"):
        return "left out: no rustc here"
    structs, lines, wanted = structs_of_c(), [], []
    for name, (size, fields) in structs.items():
        kind = "sgt_sys::" + "".join(map(str.title, name.split("_")))
        lines += [f"    let it = std::mem::MaybeUninit::<{kind}>::zeroed();"]
        lines += [f'    print!("{name} {{}}:", std::mem::size_of::<{kind}>());']
        lines += [*(f"    field!(it, {field[0]});" for field in fields), "    println!();"]
        wanted.append(f"{name} {size}:" + "".join(f" {field} {place} {its}," for field, place, its in fields))
    source, places = scratch / "places.rs", scratch / "places"
    source.write_text(RUST_PLACES + "\n".join(lines) + "\n}\n")
    words = ["rustc", "--edition", "2021", "--out-dir", places, "-L", places]
    run([*words, "--crate-type", "lib", "--crate-name", "sgt_sys", BINDINGS / "rust" / "sgt-sys" / "src" / "lib.rs"])
    run([*words, "--extern", "sgt_sys", source])
    same("the structs", wanted, run([places / "places"]).splitlines())
    return f"{len(structs)} structs"


def runs_installed(scratch, folder, lib, flags):
    """Builds a program with these flags, and runs it with the library of the folder, which it finds by its soname."""
    program = scratch / "installed"
    run(["cc", "-std=c11", "-o", program, BINDINGS / "c" / "threads.c", *flags])
    same("the money", MONEY, run([program], env={"LD_LIBRARY_PATH": str(folder / lib)}))
    name = f"libsgt.so.{minor_version()}"
    same("the library that it finds", True, f"[{name}]" in run(["readelf", "-d", program]))
    same("that this is a file", False, (folder / lib / name).is_symlink())


def installs(scratch):
    """Installs under a relative prefix, with DESTDIR, and with another LIBDIR."""
    run([BINDINGS / "build", "install", "near/prefix"], seconds=BUILD_SECONDS, cwd=scratch)
    prefix = scratch / "near" / "prefix"
    same("the prefix of sgt.pc", f"prefix={prefix}", (prefix / "lib" / "pkgconfig" / "sgt.pc").read_text().splitlines()[0])
    runs_installed(scratch, prefix, "lib", [f"-I{prefix / 'include'}", f"-L{prefix / 'lib'}", "-lsgt", "-pthread"])
    staged = dict(os.environ, DESTDIR=str(scratch / "stage"), LIBDIR="/opt/sgt/lib64", CC="cc", AR="ar")
    run([BINDINGS / "build", "install", "/opt/sgt"], env=staged)
    stage = scratch / "stage" / "opt" / "sgt"
    text = (stage / "lib64" / "pkgconfig" / "sgt.pc").read_text()
    same("the folder of libraries of sgt.pc", True, "libdir=/opt/sgt/lib64\n" in text and "prefix=/opt/sgt\n" in text)
    same("the headers", ["sgt.h", "sgt.hpp", "sgt_shared.h"], sorted(path.name for path in (stage / "include").iterdir()))
    runs_installed(scratch, stage, "lib64", [f"-I{stage / 'include'}", f"-L{stage / 'lib64'}", "-lsgt", "-pthread"])


def span_of_its_page(begin):
    """The code on the page of the library that begins so, as its readers copy it."""
    spans = re.findall(r"`([^`\n]+)`", (TOP / "docs" / "LIBRARY.md").read_text())
    found = [span for span in spans if span.startswith(begin)]
    same(f"how often the page has {begin}", 1, len(found))
    return found[0]


def runs_the_commands_of_its_page(scratch):
    """The commands of the page, but for the folders in which they put something."""
    block = (TOP / "docs" / "LIBRARY.md").read_text().split("```sh\n")[1].split("```")[0]
    commands = [line.partition("#")[0].split() for line in block.splitlines()]
    same("the commands that make the library", [["bindings/build", "unproved"], ["bindings/build"]], commands[:2])
    places = {"/usr/local": scratch / "page", "dist": scratch / "dist"}
    for words in commands[2:]:
        run([places.get(word, word) for word in words], cwd=TOP)
    same("what an install made", True, (scratch / "page" / "lib" / "libsgt.so").exists())
    same("what else was made", 1, len(list((scratch / "dist").glob("*.whl"))))
    for begin, source in (("cc -I", "c/bank.c"), ("c++ -std=c++17", "cpp/bank.cpp")):
        words = span_of_its_page(begin).replace(f" {pathlib.Path(source).name} ", f" bindings/{source} ").split()
        if shutil.which(words[0]):
            run([*words, "-o", scratch / "page_bank"], cwd=TOP)
            same(f"the story of {source}", STORY, run([scratch / "page_bank"]))
    name, _, path = span_of_its_page("PYTHONPATH=").partition("=")
    words = [sys.executable, "-B", "-c", "import sgt; print(sgt.version())"]
    same("what the package says", f"{declared_version()}\n", run(words, env={**os.environ, name: path}, cwd=TOP))


def builds_by_the_line_of_its_page_for_cargo(scratch):
    """A program in Rust that has the page's dependency, with the library that was installed."""
    if not shutil.which("cargo"):
        return "left out: no cargo here"
    (scratch / "crate" / "src").mkdir(parents=True)
    line = span_of_its_page("sgt = {").replace("...", str(TOP))
    head = '[package]\nname = "bank"\nversion = "0.1.0"\nedition = "2021"\n\n[dependencies]\n'
    (scratch / "crate" / "Cargo.toml").write_text(f"{head}{line}\n")
    shutil.copy(BINDINGS / "rust" / "examples" / "bank.rs", scratch / "crate" / "src" / "main.rs")
    env = dict(os.environ, CARGO_TARGET_DIR=str(scratch / "target"), SGT_LIB_DIR=str(scratch / "page" / "lib"))
    same("the story", STORY, run(["cargo", "run", "--offline", "--quiet"], env=env, cwd=scratch / "crate"))
    return None


def is_found_by_pkg_config(scratch):
    if not shutil.which("pkg-config"):
        return "left out: no pkg-config here"
    prefix = scratch / "near" / "prefix"
    env = dict(os.environ, PKG_CONFIG_PATH=str(prefix / "lib" / "pkgconfig"))
    flags = run(span_of_its_page("pkg-config --").split(), env=env).split()
    same("the version", declared_version(), run(["pkg-config", "--modversion", "sgt"], env=env).strip())
    runs_installed(scratch, prefix, "lib", [*flags, "-pthread"])
    return None


def is_found_by_cmake(scratch):
    """By the lines of the page, and by each version that the installed one serves."""
    if not shutil.which("cmake"):
        return "left out: no cmake here"
    find, link = span_of_its_page("find_package("), span_of_its_page("target_link_libraries(")
    for kind in ("sgt", "static"):
        same("the target", True, "sgt::sgt" in link)
        program = f"set(CMAKE_C_STANDARD 11)\nadd_executable(bank {BINDINGS / 'c' / 'threads.c'})\n"
        threads = "find_package(Threads REQUIRED)\ntarget_link_libraries(bank Threads::Threads)\n"
        run(configures(scratch, kind, "C", f"{find}\n{program}{threads}{link.replace('sgt::sgt', f'sgt::{kind}')}\n"))
        run(["cmake", "--build", scratch / kind / "build"])
        same("the money", MONEY, run([scratch / kind / "build" / "bank"]))
    major, minor, patch = map(int, declared_version().split("."))
    for asked in (f"{major}.{minor}", f"{declared_version()} EXACT", f"{major}"):
        run(configures(scratch, f"asks {asked}", "C", f"find_package(sgt {asked} REQUIRED)\n"))
    others = [f"{major}.{minor - 1}", f"{major}.{minor + 1}", f"{major + 1}.{minor}", f"{major}.{minor}.{patch + 1}"]
    for asked in others:
        came = refused(configures(scratch, f"asks {asked}", "NONE", f"find_package(sgt {asked} REQUIRED)\n"))
        same(f"why {asked} is not found", True, f"requested version \"{asked}\"" in " ".join(came.split()))
    return f"{len(others)} other versions are not found"


def configures(scratch, name, language, lines):
    """The command that configures a project of these lines, with the package that was installed."""
    folder, prefix = scratch / name, scratch / "near" / "prefix"
    folder.mkdir()
    head = f"cmake_minimum_required(VERSION 3.10)\nproject(bank {language})\n"
    (folder / "CMakeLists.txt").write_text(head + lines)
    return ["cmake", "-S", folder, "-B", folder / "build", f"-DCMAKE_PREFIX_PATH={prefix}"]


def declared_version():
    """Returns the version in the header, its only place."""
    lines = (BINDINGS / "sgt.h").read_text().splitlines()
    return next(line.split('"')[1] for line in lines if line.startswith("#define SGT_VERSION "))


def minor_version():
    """Returns its major and its minor number."""
    return declared_version().rpartition(".")[0]


def has_one_version(_):
    for manifest in ("rust/Cargo.toml", "rust/sgt-sys/Cargo.toml"):
        lines = (BINDINGS / manifest).read_text().splitlines()
        same(f"the version of {manifest}", f'version = "{declared_version()}"', next(line for line in lines if line.startswith("version")))
    for source, line in (("rust/sgt-sys/src/lib.rs", 'pub const VERSION: &str = "{}";'), ("python/sgt/_library.py", 'VERSION = "{}"')):
        lines = (BINDINGS / source).read_text().splitlines()
        same(f"the version of {source}", True, line.format(declared_version()) in lines)


def names_each_flaw(_):
    source = (TOP / "crates/sgt_proc/src/flaw.rt").read_text()
    wanted = {(re.sub(r"(?<!^)(?=[A-Z])", "_", name).upper(), number) for name, number in re.findall(r"Flaw::(\w+) => (\d+),", source)}
    flaws = (BINDINGS / "sgt.h").read_text().split("enum sgt_flaw {")[1].split("};")[0]
    same("the flaws of sgt.h", sorted(wanted), sorted(re.findall(r"SGT_(\w+) = (\d+)", flaws)))
    return f"{len(wanted)} flaws"


def reports_the_story_in_c(scratch):
    same("the story", STORY, run([built(scratch, "cc", C_FLAGS, BINDINGS / "c" / "bank.c")]))


def transfers_side_by_side(scratch):
    same("the transfers", TRANSFERS, run([built(scratch, "cc", C_FLAGS, BINDINGS / "c" / "transfers.c")]))


def counts_the_money_of_eight_threads(scratch):
    same("the money", MONEY, run([built(scratch, "cc", C_FLAGS, BINDINGS / "c" / "threads.c")]))


def reports_the_status_of_each_call(scratch):
    reported = run([built(scratch, "cc", C_FLAGS, C_SOURCES / "calls.c")])
    count = reported.split()[0]
    same("what is told", f"{count} checks, 0 failed\n", reported)
    return f"{count} checks"


def reports_what_callers_decide(scratch):
    reported = run([built(scratch, "cc", C_FLAGS, C_SOURCES / "own_access.c")])
    count = reported.split()[0]
    same("what is told", f"{count} checks, 0 failed\n", reported)
    return f"{count} checks"


def goes_on_where_each_allocation_is_refused(scratch):
    reported = run([built(scratch, "cc", C_FLAGS, BINDINGS / "c" / "refused.c", WRAPS)])
    count = int(reported.split()[2])
    same("what is told", f"{count - 2} of {count} allocations were told as refused, 2 done without\n", reported)
    return f"{count} allocations"


def lets_all_end_where_no_memory_is_left(scratch):
    reported = run([built(scratch, "cc", C_FLAGS, C_SOURCES / "growths.c", WRAPS)])
    once, oldest, newest, cuts, cuts_for_good = (int(line.split()[0]) for line in reported.splitlines())
    if not (once == oldest == newest > 0 and cuts == cuts_for_good > 0):
        raise Differs(f"what fails: {reported}")
    return f"{once} events, {cuts} cuts"


def is_clean_under_sanitizers(scratch):
    if not can(scratch, "cc", SANITIZERS):
        return "left out: cc has no sanitizers here"
    c = BINDINGS / "c"
    plain = (c / "bank.c", c / "transfers.c", c / "threads.c", C_SOURCES / "calls.c", C_SOURCES / "own_access.c")
    failing = (c / "refused.c", C_SOURCES / "growths.c")
    for source, extra in (*((source, WRAPS) for source in failing), *((source, []) for source in plain)):
        run([built(scratch, "cc", C_FLAGS, source, SANITIZERS + extra)])
    return None


def reports_the_story_in_cpp(scratch):
    if not shutil.which("c++"):
        return "left out: no c++ here"
    cpp = BINDINGS / "cpp"
    same("the story", STORY, run([built(scratch, "c++", CPP_FLAGS, cpp / "bank.cpp")]))
    same("the money", LEFT, run([built(scratch, "c++", CPP_FLAGS, cpp / "threads.cpp")]))
    return None


def reports_the_story_in_rust(scratch):
    if not shutil.which("rustc"):
        return "left out: no rustc here"
    rust, find = BINDINGS / "rust", ["-L", f"native={OUT}", "-L", scratch]
    words = ["rustc", "--edition", "2021", "-O", "-D", "warnings"]
    lib = [*words, "--crate-type", "lib", "--out-dir", scratch]
    run([*lib, "--crate-name", "sgt_sys", *find, "-l", "static=sgt", rust / "sgt-sys" / "src" / "lib.rs"])
    run([*lib, "--crate-name", "sgt", *find, "--extern", "sgt_sys", rust / "src" / "lib.rs"])
    for example, wanted in (("bank", STORY), ("threads", LEFT)):
        program = scratch / f"{example}_rust"
        run([*words, *find, "--extern", "sgt", "-o", program, rust / "examples" / f"{example}.rs"])
        same(f"what {example} tells", wanted, run([program]))
    program = scratch / "hazards_rust"
    run([*words, *find, "--extern", "sgt", "-o", program, C_SOURCES / "shared_hazards.rs"])
    same("what becomes of a hook that panics", "all held\n", run([program]))
    return None


def reports_the_story_by_cargo(scratch):
    if not shutil.which("cargo"):
        return "left out: no cargo here"
    folder = scratch / "lib"
    folder.mkdir()
    shutil.copy(OUT / "libsgt.a", folder)
    env = dict(os.environ, CARGO_TARGET_DIR=str(scratch / "target"), SGT_LIB_DIR=str(folder))
    words = ["cargo", "run", "--offline", "--quiet", "--example"]
    same("the story", STORY, run([*words, "bank"], env=env, cwd=BINDINGS / "rust"))
    same("the money", LEFT, run([*words, "threads"], env=env, cwd=BINDINGS / "rust"))
    os.utime(folder / "libsgt.a", (time.time() + 5, time.time() + 5))  # a library that has changed is linked anew
    reported = run(["cargo", "build", "--offline", "--verbose", "--example", "bank"], env=env, cwd=BINDINGS / "rust", also_errors=True)
    same("that a changed library is seen", True, "Dirty sgt-sys" in reported)
    reported = run(["cargo", "test", "--offline", "--doc"], env=env, cwd=BINDINGS / "rust")
    same("the program that does not compile", 1, len(re.findall(r"OwnTransaction .* compile fail \.\.\. ok", reported)))
    return None


def reports_the_story_in_python(_):
    env = dict(os.environ, PYTHONDONTWRITEBYTECODE="1")
    same("the story", STORY, run([sys.executable, BINDINGS / "python" / "bank.py"], env=env))
    same("the money", LEFT, run([sys.executable, BINDINGS / "python" / "threads.py"], env=env))


def takes_the_library_that_is_named(scratch):
    """A package without a library beside it takes the one that SGT_LIBRARY names, or that of the folder which it names."""
    shutil.copytree(BINDINGS / "python" / "sgt", scratch / "alone" / "sgt", ignore=shutil.ignore_patterns("*.so", "__pycache__"))
    for named in (OUT, f"{OUT}/", OUT / "libsgt.so"):
        env = dict(os.environ, PYTHONPATH=str(scratch / "alone"), PYTHONDONTWRITEBYTECODE="1", SGT_LIBRARY=str(named))
        reported = run([sys.executable, "-c", "import sgt; print(sgt.version())"], env=env)
        same(f"the version of {named}", f"{declared_version()}\n", reported)


def is_a_wheel(scratch):
    """A wheel that is unpacked elsewhere finds the library that it contains."""
    run([BINDINGS / "build", "wheel", scratch / "wheels"])
    wheel = next((scratch / "wheels").glob("*.whl"))
    same("its name", f"sgt-{declared_version()}-py3-none-", wheel.name[: len(f"sgt-{declared_version()}-py3-none-")])
    shutil.unpack_archive(wheel, scratch / "site", "zip")
    shutil.copy(BINDINGS / "python" / "threads.py", scratch / "site")
    env = {name: value for name, value in os.environ.items() if name != "SGT_LIBRARY"}
    same("the money", LEFT, run([sys.executable, scratch / "site" / "threads.py"], env=env, cwd=scratch))
    same("what says that it is typed", True, (scratch / "site" / "sgt" / "py.typed").exists())


def programs_of(language, mark):
    """Returns the programs of the page in this language: the blocks that contain this mark."""
    blocks = (TOP / "docs" / "LIBRARY.md").read_text().split(f"```{language}\n")[1:]
    return [block.split("```")[0] for block in blocks if mark in block.split("```")[0]]


def runs_the_programs_of_its_page(scratch):
    """Builds and runs the programs as a reader copies them, without warnings."""
    reported = []
    for number, text in enumerate(programs_of("c", "int main(void)")):
        source = scratch / f"page{number}.c"
        source.write_text(text)
        reported.append(run([built(scratch, "cc", C_FLAGS, source)]))
    env = dict(os.environ, PYTHONPATH=str(BINDINGS / "python"), PYTHONDONTWRITEBYTECODE="1")
    reported += [run([sys.executable, "-W", "error", "-c", text], env=env) for text in programs_of("python", "with ")]
    same("what the programs tell", ["80000\n", "paid 30\n", "1500\n", "80000\n", "paid 30\n", "COMMITTED 1500\n"], reported)
    if not shutil.which("rustc") or not (scratch / "libsgt.rlib").exists():
        return "but for those in Rust: no rustc here"
    texts = [text if "fn main()" in text else PARTS_IN_RUST % text for text in programs_of("rust", "let ")]
    wanted = ["80000\n", "true Ok(Some(30))\n", "committed 1100\ntrue Ok(None)\n"]
    same("what the programs in Rust tell", wanted, [told_in_rust(scratch, text) for text in texts])
    return None


# A program of a part of the page, which may use `bank`, and may set `paid`.
PARTS_IN_RUST = """fn main() -> Result<(), sgt::Error> {
    let rows = [sgt::Row { table: 7, number: 1, value: 100 }];
    let opening = r#"{"limits":[8,1000000,1],"accounts":[],"procedures":[]}"#;
    let (bank, paid) = (sgt::SharedEngine::open_with(opening, &rows, sgt::Configuration::default())?, true);
%s
    println!("{paid} {:?}", bank.get(7, 2));
    Ok(())
}
"""


def told_in_rust(scratch, text):
    """What a program in Rust writes."""
    source, program = scratch / "page.rs", scratch / "page_rust"
    source.write_text(text)
    words = ["rustc", "--edition", "2021", "-D", "warnings", "-A", "unused_variables", "-L", f"native={OUT}"]
    run([*words, "-L", scratch, "--extern", "sgt", "-o", program, source])
    return run([program])


def gives_each_reply_and_fault_its_text(_):
    sgt = module()
    Cause, Kind, Reply = sgt.Cause, sgt.Kind, sgt.Reply

    many = tuple(range(32))
    texts = [
        (Reply(Kind.STARTED, tid=4_000_000_000), "started 4000000000"),
        (Reply(Kind.STARTED, tid=4_000_000), "started 4000000"),
        (Reply(Kind.NO_PROCEDURE), "no procedure"),
        (Reply(Kind.BAD_ARGS), "bad args"),
        (Reply(Kind.SPENT), "spent"),
        (Reply(Kind.FULL), "full"),
        (Reply(Kind.UNKNOWN), "unknown"),
        (Reply(Kind.OVER, cause=Cause.COMMIT), "over committed"),
        (Reply(Kind.OVER, cause=Cause.CYCLE, walk=(3, 1)), "over aborted cycle 3 1"),
        (Reply(Kind.OVER, cause=Cause.CODE, code=1000), "over aborted asked 1000"),
        (Reply(Kind.OVER, cause=Cause.QUIT), "over aborted quit"),
        (Reply(Kind.OVER, cause=Cause.FALL, tid=9), "over fell 9"),
        (Reply(Kind.LOOKED, table=7, number=sgt.LEAST), "read 7/-999999999999999 none"),
        (Reply(Kind.LOOKED, table=0, number=1, value=-5), "read 0/1 -5"),
        (Reply(Kind.WROTE, table=2, number=0, value=sgt.MOST), "wrote 2/0 999999999999999"),
        (Reply(Kind.ENDED), "ended"),
        (Reply(Kind.NOT_ENDED), "not ended"),
        (Reply(Kind.WAITS, tid=2), "waits 2"),
        (Reply(Kind.COMMITTED), "committed none"),
        (Reply(Kind.COMMITTED, answers=(1, -2, 0)), "committed 1 -2 0"),
        (Reply(Kind.ABORTED, cause=Cause.CYCLE, walk=many, fell=(40, 41)), f"aborted cycle {' '.join(map(str, many))} fell 40 41"),
        (Reply(Kind.ABORTED, cause=Cause.CODE, code=7), "aborted asked 7 fell none"),
        (Reply(Kind.ABORTED, cause=Cause.QUIT, fell=(5,)), "aborted quit fell 5"),
        (Reply(Kind.REFUSED, code=7, fell=(5,)), "refused 7 fell 5"),
    ]
    for reply, text in texts:
        same(f"the text of {reply}", text, reply.text())
    shape_errors = [
        Reply(0),
        Reply(16),
        Reply(Kind.OVER, cause=5),
        Reply(Kind.LOOKED, table=8, number=1),
        Reply(Kind.WROTE, table=0, number=sgt.MOST + 1),
        Reply(Kind.ABORTED, cause=Cause.COMMIT),
        Reply(Kind.ABORTED, cause=Cause.CODE, code=65_536),
        Reply(Kind.REFUSED, code=65_536),
    ]
    for reply in shape_errors:
        same(f"the text of {reply}", "refused", refusal(reply.text))
    faults = [
        ({"limits": (8, 100, 2)}, "bad limits", '"limits": the third number is 2, and has to be from 0 to 1'),
        (
            {"limits": (8, 100), "accounts": [(1, 101, 0)]},
            "bad line",
            '"accounts": expected [name,customer,saving,checking] as account 1, found [1,101,0]',
        ),
        (
            {"limits": (8, 100), "accounts": [(1, 101, 0, 0), (2, 101, 0, 0)]},
            "bad opening 2",
            '"accounts": account 2 has the customer 101 of account 1',
        ),
        (
            {"limits": (8, 100), "procedures": [[0, []], 7]},
            "procedure 6 shape top",
            f"procedure 6, at top: expected [arguments,[statement,..]], found 7: {A_PROCEDURE}",
        ),
        (
            {"limits": (8, 100), "procedures": [[0, [["ask", 0]]]]},
            "procedure 5 flaw 8",
            "procedure 5, at 1 0 1: code 0 is not from 1 to 999",
        ),
    ]
    for opening, fault, text in faults:
        for engine in (sgt.Engine, sgt.SharedEngine):
            try:
                engine(**opening)
            except sgt.OpeningRefused as why:
                same(f"the fault of {opening}", (fault, text, text), (why.fault, why.explanation, str(why)))
            else:
                raise Differs(f"no fault was told of {opening}")
    try:
        sgt.Engine.bare(33, 100)
    except sgt.OpeningRefused as why:
        same("the fault of limits alone", ("bad limits", None, "bad limits"), (why.fault, why.explanation, str(why)))
    else:
        raise Differs("no fault was told of limits alone")


def reports_why_nothing_is_added(_):
    sgt = module()

    procedures = [
        ("nope", "not JSON", "column 1: not JSON from here: a word stands in double quotes", None),
        ({}, "procedure 5 shape top", f"procedure 5, at top: expected [arguments,[statement,..]], found {{}}: {A_PROCEDURE}", "{}"),
        ([0, [7]], "procedure 5 shape 1 0", 'procedure 5, at 1 0: expected a statement, found 7: a statement is a list that starts with its word, as ["ask",7]', "7"),
        ([0, [["ask", 0]]], "procedure 5 flaw 8", "procedure 5, at 1 0 1: code 0 is not from 1 to 999", None),
        (
            [0, [["put", 7, ["argument", 0], 1]]],
            "procedure 5 shape 1 0 2",
            'procedure 5, at 1 0 2: unknown word "argument": an expression starts with arg, reg, sum, diff, product or quotient',
            '["argument", 0]',
        ),
    ]
    rows = [(8, 0, 0), (-1, 0, 0), (256, 0, 0), (0, sgt.MOST + 1, 0), (0, 0, sgt.LEAST - 1)]
    with sgt.Engine(limits=(8, 100)) as engine:
        for procedure, fault, text, part in procedures:
            try:
                engine.procedure(procedure)
            except sgt.ProcedureRefused as why:
                same(f"the fault of {procedure}", (fault, text, text), (why.fault, why.explanation, str(why)))
                same(f"the part of {procedure} that does not fit", part, why.part)
            else:
                raise Differs(f"no fault was told of {procedure}")
        for row in rows:
            same(f"a put of {row}", "refused", refusal(lambda: engine.put([row])))
        engine.put([])
        engine.put([(7, 2, 3), (7, 1, 4)])
        same("the rows", [(7, 1, 4), (7, 2, 3)], engine.rows())
    for call in (lambda: engine.put([]), lambda: engine.procedure([0, []])):
        same("a call on a closed engine", "refused", refusal(call))


def takes_no_number_for_another_transactions(_):
    sgt = module()
    Engine, Kind = sgt.Engine, sgt.Kind
    with Engine(limits=(8, 100), accounts=[(1, 101, 500, 1000)]) as engine:
        tid = engine.start(0, 1).tid
        for number in (tid - 1, tid + 2**32, tid + 2**64):
            for event in (engine.step, engine.commit, engine.quit):
                same(f"{event.__name__} of {number}", "refused", refusal(lambda: event(number)))
        same("the entries", 1, len(engine))
        same("a number that none has", Kind.UNKNOWN, engine.step(2**32 - 1).kind)
        same("its own", Kind.LOOKED, engine.step(tid).kind)
        for place in (2**64, 2**64 + 1, -1):
            same(f"the entry at {place}", "refused", refusal(lambda: engine.entry(place)))
        same("a reserve of too many", "refused", refusal(lambda: engine.reserve(2**64)))
        for table, number in ((258, 101), (2**32 + 2, 101), (2, 2**64 + 101)):
            same(f"a read of {table}/{number}", "refused", refusal(lambda: engine.get(table, number)))
        same("a start of procedure 65537", "refused", refusal(lambda: engine.start(65537, 1, 1)))


def keeps_an_engine_whole(_):
    """An engine cannot be copied, so a copy cannot close it; an engine without history is true; all errors have one base."""
    sgt = module()
    with sgt.Engine(limits=(8, 100)) as engine, sgt.SharedEngine(limits=(8, 100)) as shared:
        for one in (engine, shared):
            for how in (copy.copy, copy.deepcopy, pickle.dumps):
                try:
                    how(one)
                except TypeError:
                    continue
                raise Differs(f"{how.__name__} of {one} was made")
        same("an engine without history", True, bool(engine))
        same("the rows", [], engine.rows())
    for name in sgt.__all__:
        error = getattr(sgt, name)
        if isinstance(error, type) and issubclass(error, Exception):
            same(f"that {name} is an Error", True, issubclass(error, sgt.Error))
    same("the version", (declared_version(),) * 2, (sgt.version(), sgt.__version__))


def puts_a_million_rows_soon(_):
    """A million rows take seconds at most."""
    sgt = module()
    rows = [(7, number, number) for number in range(1_000_000)]
    with sgt.Engine(limits=(8, 100)) as engine:
        began = time.process_time()
        engine.put(rows)
        took = time.process_time() - began
        same("the last row", 999_999, engine.get(7, 999_999))
        same("how many rows there are", 1_000_000, len(engine.rows()))
    return f"{took:.1f} s of processor time"


def mixes_no_threads_replies(_):
    """Threads that share an engine, and a signal handler that calls it, each get their own replies."""
    sgt = module()
    wrong, over = [], threading.Event()
    with sgt.Engine(limits=(32, 4_000_000), accounts=[(n, 100 + n, n, 0) for n in range(8)]) as engine:

        def asks(number):
            while not over.is_set():
                reply = engine.run(0, number)[1]
                if reply.answers != (number,):
                    wrong.append((number, reply))

        def handle(*_):
            engine.run(0, 7)
            handled.append(True)

        threads = [threading.Thread(target=asks, args=(number,)) for number in range(4)]
        handled, switch = [], sys.getswitchinterval()
        sys.setswitchinterval(1e-6)
        before = signal.signal(signal.SIGALRM, handle)
        for thread in threads:
            thread.start()
        for made in range(20_000):
            if made % 10 == 0 and not signal.getitimer(signal.ITIMER_REAL)[0]:  # so a slow machine does more than handle signals
                signal.setitimer(signal.ITIMER_REAL, 0.0005)
            reply = engine.run(0, 5)[1]
            if reply.answers != (5,):
                wrong.append((5, reply))
        signal.setitimer(signal.ITIMER_REAL, 0)
        signal.signal(signal.SIGALRM, before)
        over.set()
        for thread in threads:
            thread.join()
        sys.setswitchinterval(switch)
        same("replies of others", [], wrong[:3])
        same("whether signals came", True, bool(handled))
    return f"{len(handled)} signals"


def runs_calls_beside_threads(_):
    """Other threads run beside the long calls of an engine that releases the interpreter's lock. Its own calls raise Busy meanwhile: sooner or
    later, as no thread may run on a busy machine while one of these calls does."""
    sgt = module()
    count, procedure = 200_000, [1, [["find", 0, 0, 0, 0], ["put", 0, 0, ["sum", ["reg", 0], ["arg", 0]]]]]
    missing = {"put", "run_bytes", "run_bytes beside itself", "cut"}
    for _ in range(100):
        missing -= calls_that_were_busy(sgt, count, procedure)
        if not missing:
            break
    same("calls beside which none was busy", set(), missing)
    with sgt.Engine.bare(1, 4_000_000) as engine:  # one that keeps the lock
        calls = sgt.pack_calls([(engine.procedure(procedure), 1)] * count)
        _, busy = busy_beside(sgt, lambda: engine.run_bytes(calls), lambda: len(engine))
        same("calls that were busy, and the sum", ([0], count), (busy, engine.get(0, 0)))


def busy_beside(sgt, call, *others):
    """What a call returned that a thread made, and how often each of the other calls has raised Busy meanwhile."""
    returned, busy = [], [0] * len(others)
    thread = threading.Thread(target=lambda: returned.append(call()))
    thread.start()
    while thread.is_alive():
        for at, other in enumerate(others):
            try:
                other()
            except sgt.Busy:
                busy[at] += 1
    thread.join()
    return returned, busy


def calls_that_were_busy(sgt, count, procedure):
    """Makes each of the long calls on a thread: those beside which another one was busy."""
    with sgt.Engine.bare(1, 4_000_000, releases=True) as engine:
        adds = engine.procedure(procedure)
        rows = [sgt.Row(1, number, number) for number in range(300_000)]
        _, beside_put = busy_beside(sgt, lambda: engine.put(rows), engine.part)
        same("the rows", rows, engine.rows(1))
        calls, own = sgt.pack_calls([(adds, 1)] * count), []

        def runs_one_too():
            """A long call beside a long one."""
            with contextlib.suppress(sgt.Busy):
                len(engine)
                return  # the other one has not begun, or has ended
            own.extend(engine.run_many([(adds, 1)]))

        (outcomes,), beside_run = busy_beside(sgt, lambda: engine.run_bytes(calls), lambda: engine.get(0, 0), runs_one_too)
        same("the calls that wrote, and their sum", (count, count + len(own)), (sum(sgt.wrote(outcomes)), engine.get(0, 0)))
        before = engine.rows()
        _, beside_cut = busy_beside(sgt, engine.cut, lambda: engine.get(0, 0))
        same("after the cut", (0, before), (len(engine), engine.rows()))
        same("what `close` returned", [None], busy_beside(sgt, engine.close)[0])
        try:
            raise Differs(f"a closed engine has {len(engine)} entries")
        except sgt.Closed:
            pass
    names = ("put", "run_bytes", "run_bytes beside itself", "cut")
    return {name for name, times in zip(names, (*beside_put, *beside_run, *beside_cut)) if times}


def waits_with_deadlines_in_python(_):
    """The deadlines, tickets and misuse of a shared engine, from Python."""
    sgt = module()
    with sgt.SharedEngine(limits=(2, 100, 1), accounts=[(1, 101, 500, 1000)]) as bank:
        writer = bank.transaction(1, 1, 100)
        for _ in range(3):
            writer.step()
        for call in (lambda: bank.run(0, 1, timeout=0.01), lambda: bank.cut(0.01)):
            same("a call that has to wait", "timed out", what(sgt.TimedOut, call, "timed out"))
        with bank.transaction(0, 1) as reader:
            while reader.step().kind is not sgt.Kind.ENDED:
                pass
            same("a third start", "timed out", what(sgt.TimedOut, lambda: bank.transaction(0, 1, timeout=0.01), "timed out"))
            same("a commit", "timed out", what(sgt.TimedOut, lambda: reader.commit(0.01), "timed out"))
            same("for whom it waited", writer.ticket.tid, reader.waits_for)
            began = time.monotonic()
            threading.Timer(0.05, writer.commit).start()
            same("its answers", (1600,), reader.commit(SOON).answers)
            same("for whom it waits then", None, reader.waits_for)
            same("that it waited", True, time.monotonic() - began > 0.04)
        same("who is live", [], bank.live())
        same("a refused start", "no procedure", what(sgt.NotStarted, lambda: bank.transaction(99), "no procedure"))
        bank.cut()
        same("an old ticket", "stale", what(sgt.Stale, writer.step, "stale"))
        with sgt.SharedEngine(limits=(2, 100)) as other:
            same("a strange ticket", "misuse", what(sgt.Misuse, lambda: other.quit(writer.ticket), "misuse"))
        writer = bank.transaction(1, 1, 1)
        while writer.step().kind is not sgt.Kind.ENDED:
            pass
        reader = bank.transaction(0, 1)
        while reader.step().kind is not sgt.Kind.ENDED:
            pass
        waiting = threading.Thread(target=reader.commit)
        waiting.start()
        while not any(live.waits for live in bank.live()):
            time.sleep(0.001)
        same("a close while a call is under way", "busy", what(sgt.Busy, bank.close, "busy"))
        writer.commit()
        waiting.join()
    same("a closed engine", "refused", refusal(lambda: bank.get(2, 101)))


def takes_a_prepared_engine_in_python(_):
    """A shared engine on one for one thread; the limits of a shared engine; the number of an outcome."""
    sgt = module()
    asks = [0, [["ask", 7]]]
    engine = sgt.Engine.bare(8, 100)
    engine.put([(7, 1, 10)])
    same("the number of a procedure", (0, 1), (engine.procedure([0, [["put", 7, 1, 5]]]), engine.procedure(asks)))
    with sgt.SharedEngine.take(engine, keeps_ended=True) as bank:
        same("the engine that was taken", "closed", what(sgt.Closed, engine.records, "closed"))
        same("the numbers of outcomes", [0, 1], [bank.run(0).sequence, bank.run(1).sequence])
        same("what was drained", [0, 1], [ended.sequence for ended in bank.drain()])
        same("the outcome of no start", None, bank.run(2).sequence)
        same("the record", 5, bank.get(7, 1))
    with sgt.Engine(limits=(8, 100)) as engine:
        engine.start(0, 1)
        same("an engine with a history", "begun", what(sgt.Begun, lambda: sgt.SharedEngine.take(engine), "begun"))
        same("its entries", 1, len(engine))
    for limits, kind in (((8, 100), sgt.Kind.REFUSED), ((8, 100, 1), sgt.Kind.REFUSED), ((8, 100, 0), sgt.Kind.ABORTED)):
        with sgt.SharedEngine(limits=limits, procedures=[asks]) as bank:
            same(f"a code with {limits}", (kind, 7), bank.run(5).reply[:1] + (bank.run(5).reply.code,))


def stepped(transaction):
    """Makes all accesses of a transaction."""
    while transaction.step().kind in (module().Kind.LOOKED, module().Kind.WROTE):
        pass
    return transaction


def ends_a_wait_at_a_signal(_):
    """A signal ends each call that waits, and leaves nothing live that nobody has."""
    sgt = module()
    with sgt.SharedEngine(limits=(2, 1000, 1), accounts=[(1, 101, 500, 1000)], keeps_ended=True) as bank:
        writer = elsewhere(lambda: stepped(bank.transaction(1, 1, 100)))
        interrupted(lambda: bank.run(0, 1))
        same("who is live after the run", [writer.ticket], [live.ticket for live in bank.live()])
        interrupted(bank.cut)
        interrupted(bank.drain)
        reader = stepped(bank.transaction(0, 1))
        interrupted(reader.commit)
        same("who is live after the commit", [writer.ticket, reader.ticket], [live.ticket for live in bank.live()])
        interrupted_beside(lambda: bank.transaction(0, 1), reader.quit)
        interrupted(lambda: [bank.transaction(0, 1), bank.transaction(0, 1)])
        writer.commit()
        same("who is live after the starts", [], bank.live())
        same("what was drained", [0], [ended.sequence for ended in bank.drain()])
        interrupted_beside(bank.drain, lambda: bank.run(1, 1, 5))
        bank.run(1, 1, 5)
        rest = [ended.sequence for ended in bank.drain(1, timeout=0) + bank.drain(1, timeout=0)]
        same("what was drained then", [1, 2], rest)


def calls_until(sgt, seconds, draw, drained, hook):
    """Makes calls of each kind for so long, and is interrupted again and again. Adds what it drains, if there is no hook, and returns how
    many calls ended, and how many signals came."""
    signals, end = 0, time.monotonic() + seconds
    with sgt.SharedEngine(limits=(8, 1_000_000, 1), accounts=[(1, 101, 0, 0)], keeps_ended=not hook, ended=hook) as bank:
        is_over = False
        while not is_over:
            try:
                with interrupts(draw.uniform(0.0001, 0.002)):
                    while not is_over:
                        bank.run(1, 1, 1)
                        with bank.transaction(0, 1) as reader:
                            reader.step()
                        if not hook:
                            drained += bank.drain(timeout=0)
                        is_over = time.monotonic() >= end
            except Interrupted:
                signals += 1
                is_over = time.monotonic() >= end
        reader = None  # the signal may have come where its block ended
        same("who is live", [], bank.live())
        bank.run(1, 1, 1)
        while not hook and (more := bank.drain(timeout=0)):
            drained += more
        return bank.get(2, 101), signals


def loses_nothing_at_signals(_):
    """Whenever a signal comes, each call is drained once, and the hook is called for each in order; nothing is left live."""
    if not (3, 11) <= sys.version_info[:2] <= (3, 12):
        return "left out: it is for Python 3.11 and 3.12; before, a signal may come where a lock is released, or a result returned"
    sgt = module()
    drained, heard, draw = [], [], random.Random(1)
    ended, signals = calls_until(sgt, 2, draw, drained, None)
    counts = Counter(call.sequence for call in drained)
    same("what was drained twice", [], [number for number, count in counts.items() if count > 1])
    same("what was not drained", [], sorted(set(range(ended)) - set(counts)))
    ended, more = calls_until(sgt, 2, draw, [], lambda call: heard.append(call.sequence))
    same("what the hook was not called for", [], sorted(set(range(ended)) - set(heard)))
    same("the order of its calls", sorted(heard), heard)
    return f"{signals + more} signals"


def keeps_the_place_of_a_wait(_):
    """A thread that waits for a cut or a commit keeps its place, whatever other threads do: no start comes past a cut, and a commit
    that another thread quits says so, though the history is cut."""
    sgt = module()
    over = threading.Event()
    switch = sys.getswitchinterval()
    sys.setswitchinterval(0.05)
    busy = threading.Thread(target=lambda: all(sum(range(1000)) for _ in iter(over.is_set, True)), daemon=True)
    busy.start()

    def keeps_one_live(bank, delay):
        time.sleep(delay)
        while not over.is_set():
            with bank.transaction(5):
                time.sleep(0.5)

    try:
        with sgt.SharedEngine(limits=(8, 100_000, 1), procedures=[[0, [["put", 7, 1, 5]]]]) as bank:
            keepers = [threading.Thread(target=keeps_one_live, args=(bank, 0.17 * number)) for number in range(3)]
            for keeper in keepers:
                keeper.start()
            time.sleep(0.5)
            bank.cut(timeout=SOON)
            over.set()
            for keeper in keepers:
                keeper.join()
            busy.join()
            over.clear()
        busy = threading.Thread(target=lambda: all(sum(range(1000)) for _ in iter(over.is_set, True)), daemon=True)
        busy.start()
        for number in range(8):
            same("the reply to a commit that is quit", sgt.Kind.OVER, reply_to_quit_commit(sgt, 0.05 * number))
    finally:
        over.set()
        sys.setswitchinterval(switch)


def reply_to_quit_commit(sgt, seconds):
    """Another thread quits a transaction that waits for its commit, and the history is cut at once: the reply to the commit."""
    with sgt.SharedEngine(limits=(8, 100, 1), accounts=[(1, 101, 0, 0)], cut_after=1) as bank:
        writer = bank.transaction(1, 1, 100)
        while writer.step().kind is not sgt.Kind.ENDED:
            pass
        reader = bank.transaction(0, 1)
        while reader.step().kind is not sgt.Kind.ENDED:
            pass
        reported = []
        waiting = threading.Thread(target=lambda: reported.append(what(sgt.Stale, reader.commit, "stale")))
        waiting.start()
        while not any(live.waits for live in bank.live()):
            time.sleep(0.001)
        time.sleep(seconds)
        bank.quit(reader.ticket)
        writer.quit()
        waiting.join()
        return reported[0] if reported[0] == "stale" else reported[0].kind


def raises_what_a_hook_raises(_):
    """What the hook raises is raised by the call that ended, and the engine goes on; an interrupt is not lost."""
    sgt = module()
    heard, raises = [], [OSError("full disk"), None, Interrupted(), None]

    def hook(ended):
        heard.append(ended.sequence)
        same("a call from the hook", "misuse", what(sgt.Misuse, bank.live, "misuse"))
        why = raises.pop(0) if raises else None
        if why:
            raise why

    with sgt.SharedEngine(limits=(8, 1000, 1), accounts=[(1, 101, 0, 0)], ended=hook, keeps_ended=True) as bank:
        same("a run", "full disk", what(OSError, lambda: bank.run(1, 1, 1), "full disk"))
        same("that it was carried out", 1, bank.get(2, 101))
        bank.run(1, 1, 1)
        writer = bank.transaction(1, 1, 1)
        while writer.step().kind is not sgt.Kind.ENDED:
            pass
        same("a commit", "interrupted", what(Interrupted, writer.commit, "interrupted"))
        bank.run(1, 1, 1)
        same("what the hook heard", [0, 1, 2, 2, 3], heard)
        same("what was drained", [0, 1, 2, 3], [ended.sequence for ended in bank.drain()])
        threading.Timer(0.1, lambda: bank.run(1, 1, 1)).start()
        same("what was waited for", [4], [ended.sequence for ended in bank.drain(timeout=SOON)])
    same("a drain of a closed engine", "closed", what(sgt.Closed, bank.drain, "closed"))
    with sgt.SharedEngine(limits=(8, 1000)) as bank:
        same("a drain of an engine that stores none", "refused", refusal(lambda: bank.drain(timeout=0)))


def reads_before_a_cut_in_python(_):
    """The hook of a cut reads what is cut off. If it raises, or is interrupted, there is no cut, and the call that cuts raises it."""
    sgt = module()
    read, lent, raises = [], [], [OSError("full disk"), Interrupted()]

    def hook(engine, part):
        lent.append(engine)
        same("a call from the hook", "misuse", what(sgt.Misuse, bank.live, "misuse"))
        if raises:
            raise raises.pop(0)
        calls, _ = engine.calls()
        read.append((part, len(engine), [call.args for call in calls], engine.get(2, 101), [engine.has_written(call.tid) for call in calls]))

    with sgt.SharedEngine(limits=(8, 1000, 1), accounts=[(1, 101, 0, 0)], cutting=hook) as bank:
        bank.run(1, 1, 7)
        bank.run(0, 1)
        entries = bank.entries()
        same("a cut whose hook raises", "full disk", what(OSError, bank.cut, "full disk"))
        same("one that is interrupted", "interrupted", what(Interrupted, bank.cut, "interrupted"))
        same("the entries", entries, bank.entries())
        bank.cut()
        same("what was read", [(0, entries, [(1, 7), (1,)], 7, [True, False])], read)
        same("the entries after the cut", 0, bank.entries())
        same("the engine after the hook", "closed", what(sgt.Closed, lambda: lent[-1].get(2, 101), "closed"))
    raises[:] = [OSError("full disk")]
    with sgt.SharedEngine.take(sgt.Engine.bare(8, 1000), cutting=hook, cut_after=3) as bank:
        same("a run that cuts", "full disk", what(OSError, lambda: bank.transact(lambda t: t.write(2, 101, 5)), "full disk"))
        same("that it was carried out", (5, 3), (bank.get(2, 101), bank.entries()))
        for _ in range(2):
            bank.transact(lambda t: t.read(2, 101))
        same("the parts that were read", [0, 0, 1], [part for part, *_ in read])


def says_who_wrote_in_python(_):
    """Whether a call wrote is said of each that ended."""
    sgt = module()
    with sgt.SharedEngine(limits=(8, 1000, 1), accounts=[(1, 101, 0, 0)], keeps_ended=True) as bank:
        bank.run(1, 1, 7)
        bank.run(0, 1)
        bank.run(1, 9, 7)
        bank.transact(lambda t: t.read(2, 101))
        bank.transact(lambda t: t.remove(2, 101))
        same("who wrote", [True, False, False, False, True], [ended.wrote for ended in bank.drain()])


def refuses_another_version(scratch):
    """Each binding compares the version of the library with its own."""
    source = scratch / "version.c"
    source.write_text('const char *sgt_version(void) { return "0.99.0"; }\n')
    run(["cc", "-shared", "-fPIC", "-o", scratch / "version.so", source])
    env = dict(os.environ, PYTHONPATH=str(BINDINGS / "python"), PYTHONDONTWRITEBYTECODE="1", SGT_LIBRARY=str(scratch / "version.so"))
    reported = run([sys.executable, "-c", "try:\n import sgt\nexcept ImportError as why:\n print(why)"], env=env)
    same("what Python tells", True, "0.99.0" in reported and declared_version() in reported)
    if not shutil.which("c++"):
        return "but in C++: no c++ here"
    headers = scratch / "headers"
    headers.mkdir()
    for header in ("sgt.h", "c/sgt_shared.h", "cpp/sgt.hpp"):
        shutil.copy(BINDINGS / header, headers)
    major, minor, patch = declared_version().split(".")
    text = (BINDINGS / "sgt.h").read_text()
    (headers / "sgt.h").write_text(text.replace(f"#define SGT_VERSION_PATCH {patch}", f"#define SGT_VERSION_PATCH {int(patch) + 1}"))
    source = scratch / "version.cpp"
    source.write_text(
        '#include <iostream>\n#include "sgt.hpp"\nint main()\n{\n    try {\n        sgt::SharedEngine bank("");\n'
        "    } catch (const std::runtime_error &why) {\n        std::cout << why.what();\n    }\n}\n"
    )
    flags = [flag for flag in CPP_FLAGS if not flag.startswith("-I")]
    reported = run([built(scratch, "c++", [*flags, f"-I{headers}"], source)])
    same("what C++ tells", True, f"the library of {declared_version()}" in reported)
    return None


def refuses_a_forked_child(_):
    """In a forked child a lock may be held for ever, so a call is refused and does not wait."""
    sgt = module()
    with sgt.SharedEngine(limits=(2, 100), accounts=[(1, 101, 500, 1000)]) as bank:
        child = os.fork()
        if child == 0:
            os._exit(0 if what(sgt.Misuse, lambda: bank.get(2, 101), "misuse") == "misuse" else 1)
        same("the status of the child", 0, os.waitpid(child, 0)[1])
        same("the parent's value", 1000, bank.get(2, 101))


CASES = [
    makes_the_library,
    has_one_version,
    names_each_flaw,
    has_the_structs_and_calls_of_its_version,
    has_the_structs_of_c_in_python,
    has_the_structs_of_c_in_rust,
    runs_the_commands_of_its_page,
    builds_by_the_line_of_its_page_for_cargo,
    installs,
    is_found_by_pkg_config,
    is_found_by_cmake,
    reports_the_story_in_c,
    transfers_side_by_side,
    counts_the_money_of_eight_threads,
    reports_the_status_of_each_call,
    reports_what_callers_decide,
    goes_on_where_each_allocation_is_refused,
    lets_all_end_where_no_memory_is_left,
    is_clean_under_sanitizers,
    reports_the_story_in_cpp,
    reports_the_story_in_rust,
    reports_the_story_by_cargo,
    reports_the_story_in_python,
    takes_the_library_that_is_named,
    is_a_wheel,
    runs_the_programs_of_its_page,
    gives_each_reply_and_fault_its_text,
    reports_why_nothing_is_added,
    takes_no_number_for_another_transactions,
    keeps_an_engine_whole,
    puts_a_million_rows_soon,
    mixes_no_threads_replies,
    runs_calls_beside_threads,
    waits_with_deadlines_in_python,
    takes_a_prepared_engine_in_python,
    ends_a_wait_at_a_signal,
    loses_nothing_at_signals,
    keeps_the_place_of_a_wait,
    raises_what_a_hook_raises,
    reads_before_a_cut_in_python,
    says_who_wrote_in_python,
    refuses_another_version,
    refuses_a_forked_child,
]


def main():
    if sys.argv[1:] not in ([], ["behind-ci"]):
        sys.exit(__doc__)
    missing = [tool for tool in ("cc", "ld", "objcopy", "ar", "nm", "readelf") if not shutil.which(tool)]
    if missing:
        print(f"left out: no {', '.join(missing)} here")
        print("0 passed, 0 failed")
        return 0
    with tempfile.TemporaryDirectory() as scratch:
        return run_cases(CASES, pathlib.Path(scratch), of="library")


if __name__ == "__main__":
    sys.exit(main())
