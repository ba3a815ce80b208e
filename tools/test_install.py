# The tests of the Makefile: what is missing is said in one line, and the tree that `make install` makes is used from
# another folder, by a C program that pkg-config helps to build, by the scripts and by Python.
# A convenience outside the proofs: nothing in crates/ uses it.
import os
import re
import shlex
import shutil
import subprocess
import sys
import tempfile

from test_commands import played, worked_example
from test_module import ROOT, contents, header_numbers
from testing import D_BYTES, D_TEXT, expect

# What rt builds is taken as it is: these tests prove nothing anew.
BUILT = ["target/staticlib/libcapi.a", "target/bin/desk_sheet", "target/bin/desk_combine"]
PROGRAMS = ["fahkelo", "make-model", "show-model", "draw-sheet", "desk_sheet", "desk_combine"]


def make(*words):
    """Runs make in the repository: its exit status, and what it prints."""
    kept = [word for name in BUILT for word in ("-o", name)]
    command = ["make", "-C", ROOT, "--no-print-directory", *kept, *words]
    done = subprocess.run(command, capture_output=True, text=True, timeout=60)
    return done.returncode, done.stdout + done.stderr


def output_of(words, folder, **env):
    """What a program prints that is run in a folder."""
    done = subprocess.run(words, cwd=folder, env={**os.environ, **env}, capture_output=True, text=True, timeout=60)
    expect(" ".join(words), done.returncode == 0 and done.stderr == "", done)
    return done.stdout


def test_missing_programs():
    """Without rt or cc, make says in one line what is missing."""
    for variable in ("RT", "CC"):
        words = ["make", "-C", ROOT, "--no-print-directory", "-n", "-B", f"{variable}=no-such-program"]
        done = subprocess.run(words, capture_output=True, text=True, timeout=60)
        said = "no-such-program is not on the path: "
        expect(f"no {variable}", done.returncode == 2 and said in done.stderr and done.stderr.count("\n") == 1, done)
        expect(f"nothing is run without {variable}", done.stdout == "", done.stdout)


def test_installed_tree():
    """All parts are there, and work from another folder."""
    with tempfile.TemporaryDirectory() as folder:
        stage, other = os.path.join(folder, "stage"), os.path.join(folder, "other folder")
        os.makedirs(other)
        status, said = make("install", f"DESTDIR={stage}", "PREFIX=/usr")
        expect("make install", status == 0, said)
        tree = os.path.join(stage, "usr")
        look_at_parts(tree)
        use_from_c(stage, other)
        use_scripts(tree, other)


def test_odd_prefix():
    """A prefix with spaces, & and | has a package whose flags a shell reads."""
    prefix = "/opt/a b & c|d"
    with tempfile.TemporaryDirectory() as folder:
        status, said = make("install", f"DESTDIR={folder}", f"PREFIX={prefix}")
        expect("make install with an odd prefix", status == 0, said)
        package = os.path.join(folder + prefix, "lib/pkgconfig")
        expect("the prefix in the package", read(f"{package}/fahkelo.pc").startswith(f"prefix={prefix}\n".encode()))
        if shutil.which("pkg-config"):
            flags = output_of(["pkg-config", "--cflags", "--libs", "fahkelo"], folder, PKG_CONFIG_PATH=package)
            wanted = [f"-I{prefix}/include", f"-L{prefix}/lib", "-lfahkelo"]
            expect("the flags of the package", shlex.split(flags) == wanted, flags)


def look_at_parts(tree):
    """The header, both libraries, the pkg-config file, the programs, the module, and a manual page for each program."""
    interface = header_numbers()["INTERFACE"]
    pages = [f"share/man/man1/{name}.1" for name in PROGRAMS] + ["share/man/man3/fahkelo.3"]
    libraries = ["lib/libfahkelo.a", "lib/libfahkelo.so", f"lib/libfahkelo.so.{interface}", "lib/pkgconfig/fahkelo.pc"]
    shared = ["share/fahkelo/fahkelo.py", "share/fahkelo/REFUSALS.md"]
    for name in ["include/fahkelo.h", *libraries, *[f"bin/{name}" for name in PROGRAMS], *shared, *pages]:
        expect(f"{name} is installed", os.path.exists(os.path.join(tree, name)))
    for name in PROGRAMS:
        expect(f"{name} can be run", os.access(os.path.join(tree, "bin", name), os.X_OK))
    expect("the library's own name", f"libfahkelo.so.{interface}".encode() in read(os.path.join(tree, libraries[1])))
    for page in pages:
        text = read(os.path.join(tree, page)).decode()
        headed = re.match(r"\.TH \S+ [13] ", text) and "\n.SH NAME\n" in text and "\n.SH SEE ALSO\n" in text
        expect(f"{page} is a page", headed)
    if shutil.which("groff"):
        for page in pages:
            words = ["groff", "-man", "-Tascii", "-ww", "-z", os.path.join(tree, page)]
            done = subprocess.run(words, capture_output=True, text=True, timeout=60)
            expect(f"{page} is well formed", done.returncode == 0 and done.stderr == "", done.stderr)


def read(path):
    """The bytes of a file."""
    with open(path, "rb") as file:
        return file.read()


def use_from_c(stage, folder):
    """The example of the C interface, built with either library, prints what docs/CAPI.md says."""
    missing = [name for name in ("cc", "pkg-config") if not shutil.which(name)]
    if missing:
        print(f"skipped: {' and '.join(missing)} not installed, so no C program was built with the installed tree")
        return
    libraries = os.path.join(stage, "usr/lib")
    env = {"PKG_CONFIG_PATH": os.path.join(libraries, "pkgconfig"), "PKG_CONFIG_SYSROOT_DIR": stage,
           "PKG_CONFIG_ALLOW_SYSTEM_CFLAGS": "1", "PKG_CONFIG_ALLOW_SYSTEM_LIBS": "1"}
    version = output_of(["pkg-config", "--modversion", "fahkelo"], folder, **env)
    expect("the version of the package", int(version) == header_numbers()["INTERFACE"], version)
    flags = output_of(["pkg-config", "--cflags", "--libs", "fahkelo"], folder, **env).split()
    shutil.copy(os.path.join(ROOT, "include/example.c"), folder)
    warnings = ["-std=c99", "-Wall", "-Wextra", "-Werror", "example.c"]
    output_of(["cc", *warnings, "-o", "shared", *flags], folder)
    static = [os.path.join(libraries, "libfahkelo.a") if flag == "-lfahkelo" else flag for flag in flags]
    output_of(["cc", *warnings, "-o", "static", *static], folder)
    shown = contents("docs/CAPI.md").split("`target/example` prints\n\n")[1].split("\n\n")[0]
    wanted = re.sub("^    ", "", shown, flags=re.M) + "\n"
    for program in ("shared", "static"):
        path = libraries if program == "shared" else ""
        got = output_of([os.path.join(folder, program)], folder, LD_LIBRARY_PATH=path)
        expect(f"the example, {program}", got == wanted, got)


def use_scripts(tree, folder):
    """The scripts and the module, and the worked example of docs/COMMANDS.md, with nothing of the repository."""
    programs = os.path.join(tree, "bin")
    with open(os.path.join(folder, "D"), "wb") as file:
        file.write(D_BYTES)
    shown = output_of([os.path.join(programs, "show-model"), "D"], folder, PYTHONSAFEPATH="1")
    expect("show-model", shown == D_TEXT, shown)
    page = output_of([os.path.join(programs, "draw-sheet"), "D"], folder)
    expect("draw-sheet", page == output_of([os.path.join(programs, "fahkelo"), "draw", "D"], folder) and "<svg" in page)
    for name in PROGRAMS:
        os.symlink(os.path.join(programs, name), os.path.join(folder, name))
    expect("the worked example", played(folder, worked_example()) > 8)
    python = "import fahkelo, os; print(fahkelo.Model.from_file('D').search(), os.path.dirname(fahkelo.library_path()))"
    got = output_of([sys.executable, "-c", python], folder, PYTHONPATH=os.path.join(tree, "share/fahkelo"))
    expect("the module", got.split() == ["0", "|", "1", "3", os.path.join(tree, "lib")], got)


def installable():
    """The tests, if make is there and everything is built."""
    missing = [name for name in BUILT if not os.path.exists(os.path.join(ROOT, name))]
    if missing or not shutil.which("make"):
        print(f"skipped: {', '.join(missing) or 'make'} not there, so nothing was installed")
        return []
    return [test_missing_programs, test_installed_tree, test_odd_prefix]
