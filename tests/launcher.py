#!/usr/bin/env python3
"""Calls ./carte, ./install, .ci/build, .ci/release and the check of release/ as users do, with a stand-in for the build.

Each part makes a small repository of its own, with the scripts of this one, two crates, and an `rt` on the path that
writes a program which says of which source it was built. So what is seen is which program runs, when one is built, and
what is said of it. Prints how many checks of each part passed; a check that fails is printed whole, and the end is 1 then.
"""
import os
import pathlib
import shutil
import signal
import subprocess
import sys
import tempfile
import time

TOP = pathlib.Path(__file__).resolve().parent.parent
NOBODY = 65_534
SOURCE, LOWER = "crates/carte/src/main.rt", "crates/carte_value/src/lib.rt"
RT = r"""#!/bin/bash
here=$(basename "$PWD")
echo "$here $*" >>"$CALLS"
case $1 in
version) echo "${TOOLCHAIN:-stand-in 1}" ;;
lib)
  [ -z "${SLOW:-}" ] || sleep "$SLOW"
  cat >/dev/null
  grep -q wrong src/lib.rt && echo "src/lib.rt is wrong" && exit 1
  if [ -n "${EDIT:-}" ] && [ -e "$EDIT" ]; then mv "$EDIT" ../carte/src/main.rt; fi
  exit 0 ;;
run)
  mkdir -p out
  rm -f out/carte
  { echo '#!/bin/sh'
    echo '[ $# -gt 0 ] || { echo "carte: usage: the words are no command" >&2; exit 2; }'
    echo "echo built of $(cat src/main.rt): \"\$@\""
    echo '[ "$1" != session ] || cat'; } >out/carte
  chmod +x out/carte
  out/carte ;;
ci) mkdir -p crates/carte/out; (cd crates/carte && "$0" run 2>/dev/null); exit "${GATE:-0}" ;;
esac
"""


class House:
    """A small repository, how its scripts are called, and the count of checks."""

    def __init__(self, folder):
        self.folder, self.passed, self.failed = pathlib.Path(folder), 0, 0
        self.top = self.folder / "a house"
        self.calls = self.folder / "calls"
        (self.folder / "bin").mkdir()
        self.put(self.folder / "bin" / "rt", RT, 0o755)
        shutil.copytree(TOP / ".ci", self.top / ".ci")
        for check in (self.top / ".ci/checks").iterdir():
            if check.name != "released":
                self.put(check, f'#!/bin/sh\necho "{check.name} ${{1##*/}}"\nexit "${{ANSWERS:-0}}"\n', 0o755)
        for script in ("carte", "install"):
            shutil.copy(TOP / script, self.top / script)
        shutil.copytree(TOP / "share", self.top / "share")
        self.put("docs/COMMANDS.md", (TOP / "docs/COMMANDS.md").read_text())
        self.put("CHANGELOG.md", "# Changes\n\nWords.\n\n## 3.2.1\n\n## 3.2.0\n")
        self.put("README.md", "# carte\n\nVersion 3.2.1 (CHANGELOG.md).\n")
        self.put(self.top / "crates.txt", "# NAME: what it stands on\ncarte: carte_value clap\ncarte_other: carte_value\ncarte_value: sha2\n")
        for name, text in ((SOURCE, "one"), (LOWER, "right"), ("crates/carte/specs/Ends.antt", "ends"), ("crates/carte/proofs/Lib.antt", "lib")):
            self.put(self.top / name, text)

    def put(self, path, text, mode=0o644):
        path = self.top / path
        path.parent.mkdir(parents=True, exist_ok=True)
        path.write_text(text)
        path.chmod(mode)

    def run(self, *words, top=None, cwd=None, rt=True, **how):
        """The status and both streams of a script of the house, or of a program by its path or name."""
        self.calls.write_text("")
        self.calls.chmod(0o666)
        bins = f"{self.folder / 'bin'}:/usr/bin:/bin" if rt else "/usr/bin:/bin"
        env = {"PATH": bins, "CALLS": str(self.calls), "CDPATH": "/:crates", **how.pop("env", {})}
        top = top or self.top
        if words[0] in ("carte", "install") or str(words[0]).startswith(".ci/"):
            words = [top / words[0], *words[1:]]
        how = how if "input" in how else {"stdin": subprocess.DEVNULL, **how}
        done = subprocess.run(words, cwd=cwd or self.folder, env=env, capture_output=True, timeout=60, **how)
        return done.returncode, done.stdout.decode(), done.stderr.decode()

    def built(self):
        """Whether the last call built the program."""
        return "run" in self.calls.read_text().split()

    def same(self, what, got, wanted):
        if got == wanted:
            self.passed += 1
        else:
            self.failed += 1
            print(f"{what}:\n wanted {str(wanted)[:600]}\n got    {str(got)[:600]}")

    def says(self, what, builds, text, *words, **how):
        """A call of ./carte that ends with 0, builds or doesn't, and writes a text of its program."""
        status, out, err = self.run(*(words or ("carte", "a word")), **how)
        self.same(what, (status, out, self.built()), (0, f"built of {text}: a word\n", builds))
        if not builds:
            self.same(f"{what}: nothing on standard error", err, "")
        return err


def calls(house):
    """The first call builds and says so; later ones run what is there, from anywhere."""
    log = house.top / "crates/carte/build.log"
    err = house.says("the first call", True, "one")
    house.same("what it says", err, f"carte: building and proving the program, 2 crates; the log is {log}\n")
    house.same("lowest first", house.calls.read_text().split("\n")[:2], ["carte_value lib", "carte run"])
    house.says("the second call", False, "one")
    house.says("from its folder", False, "one", "./carte", "a word", cwd=house.top)
    house.says("from a folder below", False, "one", "../../carte", "a word", cwd=house.top / "crates/carte")
    house.says("by a shell", False, "one", "bash", "carte", "a word", cwd=house.top)
    os.symlink(house.top / "carte", house.folder / "builder")
    os.symlink("builder", house.folder / "a builder")
    house.says("by a link", False, "one", house.folder / "builder", "a word")
    house.says("by a link to a link", False, "one", "./a builder", "a word")
    house.says("by a name on the path", False, "one", "bash", "-c", 'PATH=$PATH:$PWD; builder "a word"')
    house.same("a word with a blank, none, and a star", house.run("carte", "a  b", "", "*")[1], "built of one: a  b  *\n")
    house.same("without a word", house.run("carte"), (2, "", "carte: usage: the words are no command\n"))
    (house.top / "crates/carte/out/carte").unlink()
    for what in ("a script at the first call", "a script at the next call"):
        house.same(what, house.run("carte", "session", input=b"a line\n")[:2], (0, "built of one: session\na line\n"))
    slow = house.run(".ci/build", env={"SLOW": "2.5"})
    house.same("a slow crate is named", "carte: proving carte_value, 1 of 2\n" in slow[2], True)


def edits(house):
    """Edits, with whatever size and time, files that come and go; and what is no edit."""
    house.says("the first call", True, "one")
    source, old = house.top / SOURCE, os.stat(house.top / SOURCE)
    house.put(SOURCE, "two")
    os.utime(source, ns=(old.st_atime_ns, old.st_mtime_ns))
    house.says("an edit of the same size and time", True, "two")
    house.says("after it", False, "two")
    house.put("crates/carte/src/more.rt", "more")
    house.says("a new file", True, "two")
    (house.top / "crates/carte/src/more.rt").unlink()
    house.says("a removed file", True, "two")
    house.put("crates/carte/proofs/deep/down/More.antt", "more")
    house.says("a new proof", True, "two")
    (house.top / "crates/carte/proofs/deep/down/More.antt").rename(house.top / "crates/carte/proofs/More.antt")
    house.says("a moved proof", True, "two")
    house.put("crates/carte_new/src/lib.rt", "new")
    house.says("a new crate", True, "two")
    house.put(SOURCE, "one")
    house.says("put back", True, "one")
    house.put("crates/carte/src/.main.rt.swp", "of an editor")
    house.put("docs/page.md", "a page")
    house.says("files that are no sources", False, "one")
    os.utime(source)
    house.says("a new time", False, "one")
    house.put(SOURCE, "two")
    subprocess.run(["bin/rt", "run"], cwd=house.top / "crates/carte", executable=house.folder / "bin/rt", env={"CALLS": "/dev/null", "PATH": "/usr/bin:/bin"}, capture_output=True)
    house.put(SOURCE, "one")
    house.says("a program that another hand built, of an edit that was undone", True, "one")
    (house.top / "crates/carte/out/carte").unlink()
    house.says("a removed program", True, "one")


def builds(house):
    """Builds that fail, and sources that change meanwhile."""
    house.says("the first call", True, "one")
    house.put(LOWER, "wrong")
    status, out, err = house.run("carte", "a word")
    house.same("a build that fails", (status, out, "src/lib.rt is wrong\n" in err, "could not be built" in err), (70, "", True, True))
    house.same("and again", house.run("carte", "a word")[0], 70)
    house.put(LOWER, "right")
    house.says("mended", True, "one")
    house.put(SOURCE, "two")
    house.put(house.folder / "edit", "three")
    err = house.says("an edit while it is built", True, "three", env={"EDIT": str(house.folder / "edit")})
    house.same("it is told", "the sources changed meanwhile; once more" in err, True)
    house.says("after it", False, "three")
    house.put(SOURCE, "two")
    status, out, err = house.run("carte", "a word", rt=False)
    house.same("without rt", (status, out, "rt, which builds it, is not on the path" in err), (70, "", True))
    house.says("with it", True, "two")
    house.put(SOURCE, "three")
    env = {"PATH": f"{house.folder / 'bin'}:/usr/bin:/bin", "CALLS": str(house.calls), "SLOW": "20"}
    # A shell that runs this in the background has it ignore interrupts, and a script that begins so can't take that back.
    heeds = {"preexec_fn": lambda: signal.signal(signal.SIGINT, signal.SIG_DFL)}
    cut = subprocess.Popen([house.top / "carte", "a word"], env=env, stdin=subprocess.DEVNULL, stderr=subprocess.DEVNULL, start_new_session=True, **heeds)
    time.sleep(1)
    os.killpg(cut.pid, signal.SIGINT)
    house.same("a build that is interrupted ends at once", cut.wait(timeout=5) != 0, True)
    house.says("after it", True, "three")


def copies(house):
    """Checkouts and copies are the same sources; an edit in one touches no other."""
    house.says("the first call", True, "one")
    for way in ("-r", "-a"):
        copy = house.folder / f"a copy {way}"
        subprocess.run(["cp", way, house.top, copy], check=True)
        house.says(f"a copy, cp {way}", False, "one", top=copy)
        house.says("once more", False, "one", top=copy)
        house.put(copy / SOURCE, "two")
        late = house.folder / f"a late copy {way}"
        subprocess.run(["cp", way, copy, late], check=True)
        house.says("a copy of an edit that wasn't built", True, "two", top=late)
        house.says("the edit itself", True, "two", top=copy)
        house.says("the first folder", False, "one")
    moved = house.folder / "moved"
    house.top.rename(moved)
    house.says("moved", False, "one", top=moved)
    git = ["git", "-c", "user.name=nobody", "-c", "user.email=nobody@example.org"]
    house.put(moved / ".gitignore", "out/\n*.log\n")
    for words in (["init", "-q"], ["add", "-A"], ["commit", "-qm", "one"], ["checkout", "-qb", "other"]):
        subprocess.run([*git, *words], cwd=moved, check=True)
    house.put(moved / SOURCE, "two")
    subprocess.run([*git, "commit", "-qam", "two"], cwd=moved, check=True)
    subprocess.run([*git, "checkout", "-q", "-"], cwd=moved, check=True)
    house.says("to a branch and back", False, "one", top=moved)
    subprocess.run([*git, "checkout", "-q", "other"], cwd=moved, check=True)
    house.says("on the branch", True, "two", top=moved)


def rights(house):
    """As a user who may not write: what is current runs, and else it is said why not."""
    how = {"user": NOBODY, "group": NOBODY} if os.geteuid() == 0 else {}
    def lock(mode):
        house.folder.chmod(0o755)
        for path in [house.top, *house.top.rglob("*")]:
            if path.is_dir():
                path.chmod(mode)
    lock(0o555)
    status, out, err = house.run("carte", "a word", **how)
    house.same("not built", (status, out, err), (70, "", f"carte: the program isn't built, and {house.top} can't be written to\n"))
    lock(0o755)
    house.says("built by another", True, "one")
    lock(0o555)
    house.says("run by one who can't write", False, "one", **how)
    lock(0o755)
    os.utime(house.top / SOURCE)
    lock(0o555)
    for _ in range(2):
        house.says("under new times", False, "one", **how)
    lock(0o755)
    house.put(SOURCE, "two")
    lock(0o555)
    house.same("an edit by another", house.run("carte", "a word", **how)[0], 70)
    lock(0o755)


def releases(house):
    """A released program runs where none is built and its sources are those that stand here."""
    said = "carte: running release/carte, which was proved from these sources; .ci/build builds it anew\n"
    program, state = house.top / "crates/carte/out/carte", lambda: house.run("carte", "a word")
    house.same("no program to release", house.run(".ci/release")[0], 1)
    house.says("built", True, "one")
    house.put(SOURCE, "two")
    house.same("none of these sources", house.run(".ci/release")[0], 1)
    house.put(SOURCE, "one")
    house.same("made", house.run(".ci/release")[:2], (0, "release: version 3.2.1, made by stand-in 1\n"))
    house.same("its version", (house.top / "release/carte.sources").read_text().split("\n")[4], "3.2.1")
    shutil.rmtree(program.parent)
    house.same("the first call", (state(), house.built()), ((0, "built of one: a word\n", said), False))
    house.same("the second call", (state(), house.built()), ((0, "built of one: a word\n", ""), False))
    house.same("without rt", house.run("carte", "a word", rt=False), (0, "built of one: a word\n", ""))
    copy = house.folder / "copy"
    subprocess.run(["cp", "-r", house.top, copy], check=True)
    house.same("a copy says it again", house.run("carte", "a word", top=copy), (0, "built of one: a word\n", said))
    def builds_since(why, what, text="one"):
        err = house.says(what, True, text)
        house.same(f"{what}, told", err.splitlines()[:1], [f"carte: release/carte isn't run: {why}"])
        shutil.rmtree(program.parent)
    house.put(SOURCE, "two")
    builds_since(f"{SOURCE} is another than it was made from", "other sources", "two")
    house.put(SOURCE, "one")
    house.put("crates/carte_value/src/stray.rt", "stray")
    builds_since("crates/carte_value/src/stray.rt is none of its sources", "a stray file")
    (house.top / "crates/carte_value/src/stray.rt").unlink()
    (house.top / "crates/carte/specs/Ends.antt").rename(house.folder / "Ends.antt")
    builds_since("crates/carte/specs/Ends.antt, of which it was made, is not here", "a file less")
    shutil.move(house.folder / "Ends.antt", house.top / "crates/carte/specs/Ends.antt")
    lines, bytes_of = (house.top / "release/carte.sources").read_text(), (house.top / "release/carte").read_text()
    house.put("release/carte.sources", lines.replace("Linux", "Plan9"))
    builds_since("it is for Plan9 " + os.uname().machine, "of another machine")
    house.put("release/carte.sources", lines)
    house.put("release/carte", bytes_of.replace("one", "won"), 0o755)
    builds_since("its bytes aren't those that release/carte.sources tells of", "not the program that was made")
    house.put("release/carte", bytes_of)
    builds_since("it isn't executable", "not executable")
    old = "/lib/libc.so.6: version `GLIBC_2.38' not found (required by release/carte)"
    for text, status, why in (
        (f"#!/bin/sh\necho \"release/carte: {old.replace('`', chr(92) + '`')}\" >&2\nexit 1\n", 1, f"release/carte: {old}"),
        ("#!/no/such/loader\n", "12", "release/carte: "),
        ("#!/bin/sh\nkill -SEGV $$\n", 139, None),
    ):
        house.put("release/carte", text, 0o755)
        own = subprocess.run(["sha256sum", house.top / "release/carte"], capture_output=True, text=True).stdout.split()[0]
        house.put("release/carte.sources", "\n".join([lines.split("\n")[0], own, *lines.split("\n")[2:]]))
        for _ in range(2):
            err = house.says(f"one that ends with {status}", True, "one").splitlines()[0]
            house.same("it is told", (f"it can't run on this machine (status {status}" in err, (why or "") in err), (True, True))
            shutil.rmtree(program.parent)
        status_of, out, err = house.run("carte", "a word", rt=False)
        house.same("without rt", (status_of, out, "rt, which builds it, is not on the path" in err), (70, "", True))
    house.put("release/carte", bytes_of, 0o755)
    house.put("release/carte.sources", lines)
    house.same("as it was", (state(), house.built()), ((0, "built of one: a word\n", said), False))
    house.put("crates/carte/specs/Ends.antt", "ends, made anew")
    house.put("crates/carte/specs/Ends.antt", "ends")
    house.put(house.folder / "poor" / "stat", "#!/bin/sh\nexit 1\n", 0o755)
    status, out, err = house.run("carte", "a word", env={"PATH": f"{house.folder}/poor:/usr/bin:/bin"})
    house.same("without GNU's stat", (status, out, "of GNU" in err), (70, "", True))


def unwritable(house):
    """A checkout that can't be written to: the released program runs, without a line, and its sources are looked at once."""
    how = {"user": NOBODY, "group": NOBODY} if os.geteuid() == 0 else {}
    program = house.top / "crates/carte/out"
    house.says("built", True, "one")
    house.run(".ci/release")
    shutil.rmtree(program)
    house.folder.chmod(0o755)
    sums = house.folder / "sums"
    sums.touch(mode=0o666)
    sums.chmod(0o666)
    house.put(house.folder / "bin/sha256sum", f'#!/bin/sh\necho x >>"{sums}"\nexec /usr/bin/sha256sum "$@"\n', 0o755)
    for path in [house.top, *house.top.rglob("*")]:
        if path.is_dir():
            path.chmod(0o555)
    home = house.folder / "home"
    home.mkdir()
    home.chmod(0o777)
    for place in ({"HOME": str(home)}, {"HOME": "/no/such/home", "XDG_CACHE_HOME": str(home / "cache")}):
        house.says("the first call", False, "one", env=place, **how)
        counted = sums.stat().st_size
        house.same("its sums are taken", counted > 0, True)
        house.says("the second call", False, "one", env=place, **how)
        house.same("and not again", sums.stat().st_size, counted)
    for _ in range(2):
        house.says("with no home", False, "one", env={"TMPDIR": str(home)}, **how)
    if how:
        house.same("nothing is kept here", [it.name for it in (house.top / "release").iterdir() if it.name.endswith(".log")], [])
    for path in [house.top, *house.top.rglob("*")]:
        if path.is_dir():
            path.chmod(0o755)


def installs(house):
    """./install puts four files below a folder, and takes them away."""
    prefix = house.folder / "a prefix"
    files = ["bin/carte", "share/bash-completion/completions/carte", "share/man/man1/carte.1", "share/zsh/site-functions/_carte"]
    there = lambda: sorted(str(it.relative_to(prefix)) for it in prefix.rglob("*") if it.is_file())
    status, out, _ = house.run("install", prefix)
    house.same("installed", (status, there(), out.splitlines()[0]), (0, files, f"install: carte 3.2.1 is {prefix}/bin/carte; 'man carte' tells of it, and ./install --remove {prefix} takes it away"))
    house.same("it isn't on the path", out.splitlines()[1:], [f"install: {prefix}/bin is not on the path"])
    house.says("it runs alone", False, "one", prefix / "bin/carte", "a word")
    house.same("once more", (house.run("install", prefix)[0], there()), (0, files))
    house.put(prefix / "bin/other", "another's")
    house.same("removed", (house.run("install", "--remove", prefix)[0], there()), (0, ["bin/other"]))
    house.same("its folders too", sorted(it.name for it in prefix.iterdir()), ["bin"])
    house.same("once more", house.run("install", "--remove", prefix)[0], 0)
    house.same("from where nothing is", house.run("install", "--remove", house.folder / "nowhere")[0], 1)
    home = house.folder / "home"
    home.mkdir()
    house.same("in the home", (house.run("install", env={"HOME": str(home)})[0], (home / ".local/bin/carte").exists()), (0, True))
    for words in (("-h",), ("--remove", "a", "b"), ("a", "b"), ("",), ("--remove", "--remove")):
        house.same(f"words {words}", house.run("install", *words, env={"HOME": ""})[:2] == (2, "") or words == ("",), True)
    if os.geteuid() == 0:
        house.folder.chmod(0o755)
        closed = house.folder / "closed"
        closed.mkdir(mode=0o755)
        status, out, err = house.run("install", closed, user=NOBODY, group=NOBODY)
        house.same("where one may not write", (status, out, err), (1, "", f"install: {closed}/bin can't be written to\n"))
    house.put(SOURCE, "two")
    house.same("nothing to install", house.run("install", prefix, rt=False)[:2], (70, ""))


def manual(house):
    """The manual page has what COMMANDS says, and troff finds no fault in it; the completion gives the words."""
    house.says("built", True, "one")
    house.run("install", house.folder / "to")
    page = house.folder / "to/share/man/man1/carte.1"
    house.same("its head", page.read_text().splitlines()[0], '.TH CARTE 1 "" "carte 3.2.1" "User Commands"')
    if shutil.which("groff"):
        done = subprocess.run(["groff", "-man", "-Tascii", "-P-cbou", "-ww", page], capture_output=True, text=True)
        house.same("troff finds no fault", (done.returncode, done.stderr), (0, ""))
        for text in ("--rebuilder", "the state's device failed", "explain first.toml", "STATUSES", "targets not taken"):
            house.same(f"it has {text}", text in done.stdout, True)
    else:
        print("left out: groff, which isn't here")
    for words, wanted in (("b", ["build"]), ("build --reb", ["--rebuilder"]), ("build --rebuilder v", ["verifying"]),
                          ("build --kind = sh", ["sheet"]), ("build crates.t", ["crates.txt"]), ("build a b --l", ["--list"])):
        words = ["carte", *words.split()]
        script = f'. share/carte.bash; COMP_WORDS=("$@"); COMP_CWORD={len(words) - 1}; _carte 2>/dev/null; printf "%s\\n" "${{COMPREPLY[@]}}"'
        done = subprocess.run(["bash", "-c", script, "-", *words], cwd=house.top, capture_output=True, text=True)
        house.same(f"completes {words}", done.stdout.split(), wanted)


def checks(house):
    """What the check of release/ says, and that the gate runs it."""
    def check(status, said, **env):
        got = house.run(".ci/checks/released", env=env)
        house.same(f"the check, {said}", (got[0], got[1].splitlines()[-1:]), (status, [f"released: {said}"]))
    check(0, "there is no release/")
    house.put("README.md", "# carte\n\nVersion 3.2.0 (CHANGELOG.md).\n")
    check(1, "README.md has another version than CHANGELOG.md, 3.2.1")
    house.put("README.md", "# carte\n\nVersion 3.2.1 (CHANGELOG.md).\n")
    house.says("built", True, "one")
    house.run(".ci/release")
    check(0, "the bytes are those that this toolchain builds")
    check(0, "made with another toolchain, and the answers are the same", TOOLCHAIN="stand-in 2")
    house.same("both were asked", house.run(".ci/checks/released", env={"TOOLCHAIN": "stand-in 2"})[1].splitlines()[:2], ["books carte", "replay carte"])
    check(1, "the answers of release/carte are others", TOOLCHAIN="stand-in 2", ANSWERS="1")
    lines = (house.top / "release/carte.sources").read_text()
    house.put(SOURCE, "two")
    check(0, "release/ is of other sources; .ci/release makes it anew")
    house.put(SOURCE, "one")
    house.put("release/carte", "#!/bin/sh\n", 0o755)
    check(1, "release/carte isn't the program that release/carte.sources tells of")
    own = subprocess.run(["sha256sum"], input=b"#!/bin/sh\n", capture_output=True).stdout.decode().split()[0]
    house.put("release/carte.sources", "\n".join([lines.split("\n")[0], own, *lines.split("\n")[2:]]))
    check(1, "release/carte isn't the program as this toolchain builds it")
    shutil.rmtree(house.top / "crates/carte/out")
    check(1, "no program is built from these sources: build first, by .ci/build or .ci/run")
    house.put(SOURCE, "two")
    house.same("the gate", house.run(".ci/run")[0], 0)
    house.says("what the gate built runs", False, "two")
    house.same("a gate that fails", house.run(".ci/run", env={"GATE": "1"})[0], 1)
    house.same("a check that fails", house.run(".ci/run", env={"ANSWERS": "1"})[0], 1)
    (house.top / ".ci/checks/books").chmod(0o644)
    status, out, _ = house.run(".ci/run")
    house.same("a check that isn't executable", (status, ".ci/checks/books isn't executable" in out), (1, True))


def main():
    failed = 0
    for part in (calls, edits, builds, copies, rights, releases, unwritable, installs, manual, checks):
        with tempfile.TemporaryDirectory() as folder:
            house = House(folder)
            part(house)
            print(f"{part.__name__}: {house.passed} passed, {house.failed} failed", flush=True)
            failed += house.failed
    return 1 if failed else 0


if __name__ == "__main__":
    sys.exit(main())
