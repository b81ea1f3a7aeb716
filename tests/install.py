#!/usr/bin/env python3
"""tests/install.py installs into a temporary folder and compares what is there with what the headers, the manual pages
and README say: the names that the library gives, README's first programs, compiled and run as printed, also statically,
and that uninstall leaves nothing, and done again is no error. Every global name begins with orderset, and a program that
has functions of its own by other names stores by the handle all the same. Each header is taken in every standard that it
is for, and the crate is documented without the library. It ends with status 1 at the first thing that is not so."""
import glob
import os
import re
import shutil
import subprocess
import sys
import tempfile

ROOT = os.path.join(os.path.dirname(os.path.abspath(__file__)), "..")
ARCHIVES = [f"target/staticlib/lib{name}.a" for name in ("orderset_c", "orderset2_c", "orderset_log_c")]
PREFIX = "/opt/orderset"
PYTHON = f"lib/python{sys.version_info[0]}.{sys.version_info[1]}/site-packages"
count = 0


def so(right, what, *seen):
    global count
    count += 1
    if not right:
        print(f"NOT SO: {what}", *(str(s)[:3000] for s in seen), sep="\n  ")
        sys.exit(1)


def run(*command, **options):
    done = subprocess.run(command, text=True, stdout=subprocess.PIPE, stderr=subprocess.STDOUT, **options)
    so(done.returncode == 0, f"{command} ends with status 0", done.returncode, done.stdout)
    return done.stdout


def make(*words):
    """The archives are there: they are not made again."""
    return run("make", "-s", "--no-print-directory", *(w for a in ARCHIVES for w in ("-o", a)), *words)


def files_of(folder):
    return {os.path.relpath(os.path.join(at, name), folder) for at, _, names in os.walk(folder) for name in names}


# ---- what is installed

def declared(header):
    """The functions that a header declares, as a compiler sees it, and does not define."""
    text = run("gcc", "-std=c11", "-E", "-P", "-Iinclude", f"include/{header}")
    text = re.sub(r"\bstatic inline [^;{]*;", "", re.sub(r"\b__attribute__\s*\(\(.*?\)\)", "", text))
    return set(re.findall(r"\b(orderset2?_\w+)\([^(){};]*\);", text))


def names_in(path, *options):
    lines = run("nm", "--defined-only", "--extern-only", *options, path).splitlines()
    return sorted(line.split()[2].partition("@")[0] for line in lines if len(line.split()) == 3)


def prefixed(place):
    """A global name without the prefix could be a program's own, which then takes the place of the library's."""
    archives = sorted(glob.glob("target/staticlib/*.a"))
    so(set(ARCHIVES) <= set(archives), "the archives are there", archives)
    for path, *options in *([a] for a in archives), [f"{place}/lib/liborderset.a"], [f"{place}/lib/liborderset.so", "-D"]:
        names = [name for name in names_in(path, *options) if name not in ("ORDERSET_1", "ORDERSET_PROVED_1")]
        so(names and all(name.startswith("orderset") for name in names),
           f"every global name of {os.path.basename(path)} begins with orderset",
           [name for name in names if not name.startswith("orderset")])


def library(place):
    prefixed(place)
    due = sorted(declared("orderset_raw.h"))
    so(len(due) > 70, "the headers declare functions", due)
    nodes = {"ORDERSET_1", "ORDERSET_PROVED_1"}
    shared = [name for name in names_in(f"{place}/lib/liborderset.so", "-D") if name not in nodes]
    so(shared == due, "the shared library gives the names of the headers",
       set(shared) ^ set(due))
    so(names_in(f"{place}/lib/liborderset.a") == due, "the archive gives the names of the headers, each once",
       set(names_in(f"{place}/lib/liborderset.a")) ^ set(due))
    told = run("readelf", "-dW", f"{place}/lib/liborderset.so")
    so("Library soname: [liborderset.so.1]" in told and "TEXTREL" not in told, "the soname is liborderset.so.1", told)
    moved = run("readelf", "-rW", f"{place}/lib/liborderset.so")
    so(not [name for name in due if re.search(rf"\s{name}(@|\s|$)", moved)],
       "within the shared library no program's own function takes the place of one of its own", moved)
    flags = re.search(r"FLAGS_1\)\s+Flags:(.*)", told)
    so(flags and "NOW" in flags[1], "every name is looked up when the library is loaded", told)
    named = run("nm", "-D", "--with-symbol-versions", "--defined-only", f"{place}/lib/liborderset.so")
    for name in due:
        node = "ORDERSET_PROVED_1" if "_proved_" in name else "ORDERSET_1"
        so(re.search(rf"\s{name}@@{node}$", named, re.M), f"{name} is of version {node}", named)
    so("GNU_STACK" in (p := run("readelf", "-lW", f"{place}/lib/liborderset.so")) and "RWE" not in p,
       "no stack is to be executable", p)


def installed(folder):
    place = folder + PREFIX
    make("install", f"DESTDIR={folder}", f"PREFIX={PREFIX}")
    due = {f"include/{os.path.basename(p)}" for p in glob.glob("include/*")}
    due |= {f"share/man/man{p[-1]}/{os.path.basename(p)}" for p in glob.glob("man/*.[13]")}
    due |= {f"bin/{os.path.basename(p)[:-2]}" for p in glob.glob("tools/orderset-*.c")}
    due |= {"bin/orderset"}
    due |= {f"lib/{n}" for n in ("liborderset.a", "liborderset.so", "liborderset.so.1", "pkgconfig/orderset.pc")}
    due |= {f"share/doc/orderset/{name}" for name in ("OPERATIONS.md", "HEADS.md", "picture.svg")}
    due |= {f"{PYTHON}/orderset/{name}" for name in ("__init__.py", "py.typed")}
    found = files_of(place)
    versions = {f for f in found if re.fullmatch(r"lib/liborderset\.so\.\d+\.\d+\.\d+", f)}
    so(found - versions == due and len(versions) == 1, "what is installed is what is there", found ^ due)
    version = versions.pop().partition(".so.")[2]
    said = {path: open(path).read() for path in glob.glob("man/*.[13]")}
    so(all(f'"orderset {version}"' in text for text in said.values()), f"each manual page is of version {version}")
    so(f'\nversion = "{version}"\n' in open("bindings/rust/Cargo.toml").read(), f"the crate is of version {version}")
    for path in glob.glob(f"{place}/share/doc/orderset/*.md"):
        links = [link for link in re.findall(r"\]\(([^)#]+)", open(path).read()) if "://" not in link]
        so(all(os.path.exists(os.path.join(os.path.dirname(path), link)) for link in links),
           f"what {os.path.basename(path)} links to is installed", links)
    told = open(f"{place}/lib/pkgconfig/orderset.pc").read()
    so(f"prefix={PREFIX}\n" in told and folder not in told, "the .pc file says the prefix", told)
    library(place)
    standards(place)


def standards(place):
    """Each header by itself, in every standard that it is for; the one for C++17 says so in any earlier one."""
    plain = "orderset.h", "orderset_raw.h", "orderset_persist.h"
    due = [(f"c{year}", header, True) for year in ("99", "11", "17", "2x") for header in plain]
    due += [(f"c++{year}", header, True) for year in ("11", "14", "17", "20", "2b") for header in plain]
    due += [(f"c++{year}", "orderset.hpp", year not in ("11", "14")) for year in ("11", "14", "17", "20", "2b")]
    for standard, header, fits in due:
        compiler = ["g++", "-x", "c++"] if "++" in standard else ["gcc", "-x", "c"]
        command = [*compiler, f"-std={standard}", "-Wall", "-Wextra", "-Wpedantic", "-Werror", "-fsyntax-only"]
        done = subprocess.run([*command, f"-I{place}/include", "-"], input=f"#include <{header}>\n", capture_output=True,
                              text=True)
        errors = [line for line in done.stderr.splitlines() if "error" in line.partition(" ")[2][:8]]
        so(done.returncode == 0 if fits else len(errors) == 1 and "needs C++17" in errors[0],
           f"{header} in {standard} {'is taken without a warning' if fits else 'says that it needs C++17'}",
           done.stderr)


def linked(folder, source, output):
    """first.c by pkg-config, against the shared library and against the archive."""
    place, work = folder + PREFIX, f"{folder}/work"
    os.mkdir(work)
    open(f"{work}/first.c", "w").write(source)
    env = {**os.environ, "PKG_CONFIG_PATH": f"{place}/lib/pkgconfig", "PKG_CONFIG_SYSROOT_DIR": folder}
    for how, options, static in ("shared", "", ""), ("static", "--static", "-static"):
        run("sh", "-ec", f"gcc -std=c11 -Wall -Wextra -Werror first.c {static} $(pkg-config --cflags --libs "
            f"{options} orderset) -o {how}", cwd=work, env=env)
        needed = "NEEDED" in (dynamic := run("readelf", "-d", f"{work}/{how}")) and "liborderset.so.1" in dynamic
        so(needed == (how == "shared"), f"a {how} program needs the library or not", dynamic)
        seen = "".join(run(f"./{how}", cwd=work, env={"LD_LIBRARY_PATH": f"{place}/lib"}) for _ in range(2))
        so(seen == output, f"first.c, {how}, prints what README says", seen)
        os.remove(f"{work}/first.img")


# ---- a program that has functions of its own by names that the library's could have

OWN = "log_append", "log_recover", "log_read", "insert", "recover"

OWN_C = """#include <signal.h>
#include <stdio.h>
#include <string.h>
#include <orderset.h>

""" + "".join(f"uint32_t {name}(void);\nuint32_t {name}(void) {{\n    return 0;\n}}\n\n" for name in OWN) + """
static void done(uint32_t number) {
    if (number)
        printf("%s\\n", orderset_strerror(number));
}

static void store(void) {
    struct orderset *set;
    struct orderset_log *log;
    done(orderset_create("own.img", 9, 1));
    done(orderset_log_create("own.log", 9));
    done(orderset_open("own.img", ORDERSET_WRITE, &set));
    done(orderset_log_open("own.log", ORDERSET_WRITE, &log));
    done(orderset_insert(set, (struct orderset_key){7, 0}, "seven", 5));
    done(orderset_log_append(log, "a message", 9, NULL));
    raise(SIGKILL);
}

int main(int count, char **word) {
    struct orderset_log *log;
    uint64_t first, last;
    size_t length;
    char text[ORDERSET_LOG_MESSAGE_MAX];
    if (count > 1 && !strcmp(word[1], "store"))
        store();
    done(orderset_log_open("own.log", ORDERSET_READ, &log));
    done(orderset_log_range(log, &first, &last));
    for (uint64_t i = first; i <= last; i++) {
        done(orderset_log_read(log, i, text, sizeof text, &length));
        printf("%d: %.*s\\n", (int)i, (int)length, text);
    }
    return (int)(""" + " + ".join(f"{name}()" for name in OWN) + """);
}
"""

OWN_RUST = "".join(f"#[no_mangle]\npub extern \"C\" fn {name}() -> u32 {{\n    0\n}}\n\n" for name in OWN) + """
use orderset::{Layout, Log, Mode, Set};

fn main() -> orderset::Result<()> {
    Set::create("own.img", 9, Layout::One)?;
    Log::create("own.log", 9)?;
    let mut set = Set::open("own.img", Mode::Write)?;
    let mut log = Log::open("own.log", Mode::Write)?;
    set.insert(7u64, b"seven")?;
    log.append(b"a message")?;
    std::process::exit(if """ + " + ".join(f"{name}()" for name in OWN) + """ == 0 { 9 } else { 1 })
}
"""


def stored(folder, work, how):
    """What the program of C reads, and what orderset-show and orderset say, in processes of their own."""
    so(run("./reader", cwd=work) == "1: a message\n", f"a message that {how} appended is there",
       run("./reader", cwd=work))
    for words in ["orderset-show"], ["orderset", "show"]:
        shown = run(f"{folder}{PREFIX}/bin/{words[0]}", *words[1:], "own.img", cwd=work)
        so(shown == "7: 5 bytes 736576656e\n", f"an order that {how} inserted is there", shown)
    for name in "own.img", "own.log":
        os.remove(f"{work}/{name}")


def ends(words, work, status, how):
    done = subprocess.run(words, cwd=work, text=True, stdout=subprocess.PIPE, stderr=subprocess.STDOUT)
    so(done.returncode == status and done.stdout == "", f"{how} stores, and ends with its files open", done.returncode,
       done.stdout)


def own_functions(folder):
    place, work = folder + PREFIX, f"{folder}/own"
    os.mkdir(work)
    open(f"{work}/own.c", "w").write(OWN_C)
    flags = ["-std=c11", "-Wall", "-Wextra", "-Werror", f"-I{place}/include", f"-L{place}/lib"]
    run("gcc", *flags, "-static", "own.c", "-lorderset", "-pthread", "-o", "static", cwd=work)
    run("gcc", *flags, "own.c", "-lorderset", f"-Wl,-rpath,{place}/lib", "-o", "shared", cwd=work)
    source = OWN_C.replace("return (int)(" + " + ".join(f"{name}()" for name in OWN) + ");", "return 0;")
    source = re.sub(r"^uint32_t (?:%s)\(void\)(?:;| \{.*?^\})\n" % "|".join(OWN), "", source, flags=re.M | re.S)
    open(f"{work}/reader.c", "w").write(source)
    run("gcc", *flags, "reader.c", f"-Wl,-rpath,{place}/lib", "-lorderset", "-o", "reader", cwd=work)
    so(set(OWN) & set(names_in(f"{work}/reader")) == set(), "the reader has no function of its own")
    for how in "static", "shared":
        so(set(OWN) <= set(names_in(f"{work}/{how}")), f"the {how} program has functions of its own",
           names_in(f"{work}/{how}"))
        ends([f"./{how}", "store"], work, -9, f"a {how} program")
        stored(folder, work, f"a {how} program")


def own_functions_in_rust(folder):
    """In the package that README's commands left, so that the crate is not compiled again."""
    package = f"{folder}/home/first"
    os.makedirs(f"{package}/src/bin")
    open(f"{package}/src/bin/own.rs", "w").write(OWN_RUST)
    with open(f"{package}/Cargo.toml", "a") as told:  # no_mangle is written otherwise in later editions
        told.write('\n[[bin]]\nname = "own"\npath = "src/bin/own.rs"\nedition = "2021"\n')
    run("cargo", "build", "--quiet", "--offline", "--bin", "own", cwd=package, env=rust_environment(folder))
    program = f"{package}/target/debug/own"
    so(set(OWN) <= set(names_in(program)), "the program in Rust has functions of its own")
    ends([program], f"{folder}/own", 9, "a program in Rust")
    stored(folder, f"{folder}/own", "a program in Rust")


def documented(folder):
    """The crate is documented without the library."""
    env = {**os.environ, "ORDERSET_LIB": "/none", "CARGO_TARGET_DIR": f"{folder}/doc", "RUSTDOCFLAGS": "-D warnings"}
    done = run("cargo", "doc", "--quiet", "--offline", "--no-deps", cwd="bindings/rust", env=env)
    so(os.path.exists(f"{folder}/doc/doc/orderset/struct.Set.html"), "the crate is documented without the library",
       done)


# ---- README

def blocks():
    """The fenced blocks of README's first section: language and text."""
    section = re.search(r"^## Ten minutes\n(.*?)^## ", open("README.md").read(), re.M | re.S)[1]
    return re.findall(r"^```(\w+)\n(.*?)^```$", section, re.M | re.S)


def rust_environment(folder):
    """A home of its own, and the compiler of the real one; the program is linked with the library that README's
    commands make."""
    return {**os.environ, "HOME": f"{folder}/home", "CARGO_NET_OFFLINE": "true",
            "CARGO_HOME": os.environ.get("CARGO_HOME", os.path.expanduser("~/.cargo")),
            "RUSTUP_HOME": os.environ.get("RUSTUP_HOME", os.path.expanduser("~/.rustup"))}


def as_printed(folder):
    """The commands in order, from this folder on, with a home of its own; a program is written where it stands among
    them. What they print is README's."""
    names = {"c": "first.c", "rust": "src/main.rs", "python": "first.py"}
    script = "set -e\nmake() { command make -s --no-print-directory " + " ".join(f"-o {a}" for a in ARCHIVES) + \
        " \"$@\"; }\n"
    expected = []
    for language, text in blocks():
        if language == "sh":
            script += f"echo '== {len(expected)}'\n" + text
            expected.append("")
        elif language == "text":
            expected[-1] = text
        else:
            file = f"$HOME/first/{names[language]}"
            script += f"mkdir -p $(dirname {file})\ncat >{file} <<'END OF FILE'\n{text}END OF FILE\n"
    home = f"{folder}/home"
    os.makedirs(home)
    seen = re.split(r"^== \d+\n", run("bash", "-c", script, env=rust_environment(folder)), flags=re.M)[1:]
    so(len(expected) > 2 and expected.count("") < len(expected), "README has commands with what they print", expected)
    for i, text in enumerate(expected):
        so(i < len(seen) and (seen[i] == text or text == ""), f"the commands print what README says:\n{text}", seen)
    so(os.path.exists(f"{home}/first/first.svg"), "README's picture is made")
    so(os.path.exists(f"{home}/first/second.svg"), "README's picture by the command is made")


# ---- documents beside the headers

def manuals():
    for page in sorted(glob.glob("man/*.[13]")):
        if shutil.which("groff"):
            done = subprocess.run(["groff", "-man", "-Tutf8", "-ww", page], capture_output=True, text=True)
            so(done.stderr == "" and done.stdout, f"groff reads {page} without a warning", done.stderr)
    page, handle = open("man/orderset.3").read(), declared("orderset.h")
    said = set(re.findall(r"^\.BI .*?\b(orderset_\w+)\(", page, re.M))
    so(said == handle, "orderset.3 has every call", said ^ handle)
    page, header = open("man/orderset_raw.3").read(), open("include/orderset_raw.h").read()
    raw = set(re.findall(r"\b(orderset_raw_\w+)\(", re.sub(r"/\*.*?\*/", "", header, flags=re.S)))
    raw -= {f"orderset_raw_{part}" for part in ("changed", "highs", "misfit", "stepped")}  # parts of the calls
    so(len(raw) > 20 and raw <= set(re.findall(r"\borderset_raw_\w+", page)), "orderset_raw.3 has every call",
       raw - set(re.findall(r"\borderset_raw_\w+", page)))
    run("src/refusals.py", "--check")


def main():
    os.chdir(ROOT)
    manuals()
    with tempfile.TemporaryDirectory() as folder:
        installed(folder)
        first, rust, python = (dict(reversed(blocks()))[language] for language in ("c", "rust", "python"))
        so(first == open("examples/first.c").read(), "README's program in C is examples/first.c")
        example = open("bindings/rust/examples/first.rs").read()
        so(rust == example.partition("\n")[2], "README's program in Rust is the crate's example")
        example = open("bindings/python/examples/first.py").read()
        so(python == example.partition("\n")[2], "README's program in Python is the module's example")
        printed = next(text for language, text in blocks() if language == "text")
        linked(folder, first, printed)
        own_functions(folder)
        as_printed(folder)
        own_functions_in_rust(folder)
        documented(folder)
        for time in "uninstall", "a second uninstall":
            make("uninstall", f"DESTDIR={folder}", f"PREFIX={PREFIX}")
            left = files_of(folder + PREFIX) | set(glob.glob(f"{folder}{PREFIX}/share/doc/*"))
            so(left == set(), f"{time} leaves nothing", left)
        make("uninstall", f"DESTDIR={folder}/none", f"PREFIX={PREFIX}")
    print(f"install: {count} comparisons")


if __name__ == "__main__":
    main()
