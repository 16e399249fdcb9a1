"""Programs that people use, on a mounted volume whose drivers die; each has a folder of its own there, `at`, and `source` to take from."""
import os, re, shutil, subprocess
from .rows import Skip, Wrong, holds, need, quiet, ran, row, run, said, same
from .source import project_in
from .volume import same_trees

program = lambda name: row("programs", name)


COPY = ("cp", "-a")


@program("cp")
def cp(at, source):
    ran("cp", "-a", source, at / "tree")
    ran("diff", "-r", "--no-dereference", source, at / "tree")
    same_trees(source, at / "tree")


@program("tar")
def tar(at, source):
    ran("tar", "-C", source.parent, "-cf", at / "all.tar", source.name)
    ran("tar", "-C", at, "-xpf", at / "all.tar")
    same_trees(source, at / source.name)
    ran("tar", "-C", at, "--compare", "-f", at / "all.tar")


@program("rsync")
def rsync(at, source):
    need("rsync")
    ran("rsync", "-aH", f"{source}/", at / "tree")
    same_trees(source, at / "tree")
    again = ran("rsync", "-aH", "--itemize-changes", f"{source}/", at / "tree").splitlines()
    same("what a second rsync changes", again, [])


def git_ran(folder, *words):
    return ran("git", "-C", folder, *words)


@program("git")
def git(at, source):
    need("git")
    repo = at / "repo"
    ran("git", "init", "-q", "-b", "main", repo)
    for count in range(3):
        ran("cp", "-r", source / "docs", repo / f"docs{count}")
        git_ran(repo, "add", "-A")
        git_ran(repo, "commit", "-q", "-m", f"commit {count}")
    git_ran(repo, "mv", "docs0", "papers")
    git_ran(repo, "rm", "-r", "-q", "docs1")
    git_ran(repo, "commit", "-q", "-m", "moved")
    git_ran(repo, "fsck", "--full", "--strict")
    same("git status", git_ran(repo, "status", "--porcelain"), "")
    same("the commits", git_ran(repo, "rev-list", "--count", "HEAD"), "4\n")
    git_ran(repo, "checkout", "-q", "HEAD~1")
    ran("diff", "-r", source / "docs", repo / "docs0")


@program("git-rebase")
def git_rebase(at, source):
    """git looks whether a word of two commits' names, 82 bytes long, is a file."""
    need("git")
    repo = at / "repo"
    ran("git", "init", "-q", "-b", "main", repo)

    def commit(name):
        (repo / name).write_text(name)
        git_ran(repo, "add", "-A")
        git_ran(repo, "commit", "-q", "-m", name)

    commit("first")
    git_ran(repo, "checkout", "-q", "-b", "topic")
    commit("second")
    git_ran(repo, "checkout", "-q", "main")
    commit("third")
    git_ran(repo, "checkout", "-q", "topic")
    git_ran(repo, "rebase", "-q", "main")
    ends = [git_ran(repo, "rev-parse", it).strip() for it in ("main", "topic")]
    same("the log", git_ran(repo, "log", "--format=%s", "..".join(ends)), "second\n")
    same("the names", sorted(os.listdir(repo)), [".git", "first", "second", "third"])


@program("git-clone")
def git_clone(at, source):
    """A clone onto the volume, and one of that within it."""
    need("git")
    first = source.parent / "repo"
    ran("git", "init", "-q", "-b", "main", first)
    ran("cp", "-r", source, first / "all")
    git_ran(first, "add", "-A")
    git_ran(first, "commit", "-q", "-m", "all")
    ran("git", "clone", "-q", "--no-local", first, at / "one")
    ran("git", "clone", "-q", at / "one", at / "two")
    git_ran(at / "two", "fsck", "--full")
    same("git status", git_ran(at / "two", "status", "--porcelain"), "")
    ran("diff", "-r", "--no-dereference", first / "all", at / "two" / "all")


@program("git-gc")
def git_gc(at, source):
    """The names of git's temporary packs have a process's number in them, which may have four digits."""
    need("git", "unshare")
    repo = at / "repo"
    ran("git", "init", "-q", "-b", "main", repo)
    ran("cp", "-r", source / "docs", repo)
    git_ran(repo, "add", "-A")
    git_ran(repo, "commit", "-q", "-m", "docs")
    apart = [] if max_process() < 10000 else ["unshare", "--pid", "--fork", *(["--mount-proc"] if os.getuid() == 0 else ["-r"])]
    if apart and run(*apart, "true").returncode != 0:
        raise Skip("processes have numbers over 9999, and unshare can't give others")
    ran(*apart, "git", "-C", repo, "gc", "-q")
    git_ran(repo, "fsck", "--full")
    same("the packs", len([*(repo / ".git/objects/pack").glob("*.pack")]), 1)


def max_process():
    """The number of a process that begins now."""
    with subprocess.Popen(["true"]) as process:
        return process.pid + 100


def rows_of(first):
    """A script of sqlite3: 1,000 rows in 20 transactions, an update and a removal."""
    yield first + "create table t (a integer primary key, b text);"
    for at in range(20):
        rows = ", ".join(f"('row {at} {it} {'x' * 50}')" for it in range(50))
        yield f"begin; insert into t (b) values {rows}; commit;"
    yield "update t set b = 'changed' where a % 3 = 0; delete from t where a % 5 = 0; create index i on t (b);"
    yield "pragma integrity_check; select count(*), sum(a), sum(b = 'changed') from t;"


def sqlite_with(file, first, wanted):
    need("sqlite3")
    out = ran("sqlite3", file, input="\n".join(rows_of(first)).encode(), stdin=None).split()
    same("what sqlite3 tells", out, wanted)
    same("what it tells later", ran("sqlite3", file, "pragma integrity_check; select count(*) from t;").split(), ["ok", "800"])


@program("sqlite")
def sqlite(at, source):
    sqlite_with(at / "a.db", "", ["ok", "800|400000|267"])


@program("sqlite-wal")
def sqlite_wal(at, source):
    sqlite_with(at / "w.db", "pragma journal_mode = wal;\n", ["wal", "ok", "800|400000|267"])


@program("make")
def make(at, source):
    need("make", "gcc")
    project_in(at)
    ran("make", "-s", "-C", at, "-j2")
    same("what the program prints", ran(at / "program"), "10\n")
    same("what is made again", "up to date" in ran("make", "-C", at), True)


@program("fio")
def fio(at, source):
    need("fio")
    ran("fio", "--name=v", f"--directory={at}", "--size=4m", "--bs=4k", "--rw=randrw", "--verify=crc32c", "--verify_fatal=1",
        "--do_verify=1", "--ioengine=psync", "--end_fsync=1", cwd="/tmp")
    empty(at)


@program("dbench")
def dbench(at, source):
    need("dbench")
    out = ran("dbench", "-D", at, "-t", "5", "1", cwd="/tmp")  # two clients may fill the volume
    empty(at)
    found = re.search(r"Throughput ([\d.]+) MB/sec", out)
    holds(f"dbench tells a throughput: {out[-200:]}", found)
    return f"{found[1]} MB/s"


def stress(at, what, *more):
    need("stress-ng")
    out = run("stress-ng", "--temp-path", at, f"--{what}", "1", *more, "--verify", "-t", "60", cwd="/tmp")
    if out.returncode != 0 or b"successful run" not in out.stdout + out.stderr:
        raise Wrong(said(out))
    empty(at)


@program("stress-hdd")
def stress_hdd(at, source):
    stress(at, "hdd", "--hdd-bytes", "1m", "--hdd-ops", "64")


@program("stress-dir")
def stress_dir(at, source):
    stress(at, "dir", "--dir-ops", "50", "--dir-dirs", "200")


@program("stress-link")
def stress_link(at, source):
    stress(at, "link", "--link-ops", "1")


@program("stress-rename")
def stress_rename(at, source):
    stress(at, "rename", "--rename-ops", "500")


@program("find")
def find(at, source):
    """Tools that only look say the same of the copy and of what it was copied from."""
    ran(*COPY, source, at / "tree")
    told = "%p %y %m %n %U %G %s %l\n"
    for words in (["find", ".", "-printf", told], ["grep", "-rc", "the", "."], ["du", "-a", "--apparent-size", "-b", "."]):
        here, there = (sorted(ran(*words, cwd=it).splitlines()) for it in (source, at / "tree"))
        if words[0] in ("find", "du"):
            here, there = (without_folders(it, source, words[0]) for it in (here, there))
        same(f"what {words[0]} tells", there, here)


def without_folders(lines, source, tool):
    """Lines of files alone: sizes and links of folders are each file system's own."""
    if tool == "find":
        return [it for it in lines if it.split()[1] != "d"]
    return [it for it in lines if not os.path.isdir(source / it.split("\t")[1])]


@program("rm")
def rm(at, source):
    """What is removed gives its room back."""
    before = os.statvfs(at)
    ran(*COPY, source, at / "tree")
    ran("rm", "-rf", at / "tree")
    after = os.statvfs(at)
    same("what is free", (after.f_bfree, after.f_ffree), (before.f_bfree, before.f_ffree))
    same("what is left", os.listdir(at), [])


def empty(at):
    for it in at.iterdir():
        shutil.rmtree(it) if it.is_dir() else it.unlink()
