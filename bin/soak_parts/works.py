"""What people do on a volume for a long time; each work has a folder of its own there, and may be done again and again."""
import random, shutil, sqlite3, time
from fuse_parts.programs import fio, git_ran, tar
from fuse_parts.rows import Wrong, need, ran, same
from fuse_parts.source import source_in
from fuse_parts.volume import same_trees

FILES, COMMITS = 24, 6
MAKEFILE = """CFLAGS = -O1
objects = $(patsubst %.c,%.o,$(wildcard *.c))
program: $(objects)
\t$(CC) -o $@ $^
$(objects): all.h
"""


def value(commit, file):
    """What a function of the project returns at a commit: each commit changes a few of them."""
    changed = max((it for it in range(commit + 1) if (file + it) % 5 == 0), default=0)
    return file * 1000 + changed


def write_project(folder, commit):
    for it in range(FILES):
        body = "".join(f"static int more{at}(int x) {{ return x * {at} + {it}; }}\n" for at in range(20))
        (folder / f"f{it}.c").write_text(f'#include "all.h"\n{body}int f{it}(void) {{ return more0(0) - {it} + {value(commit, it)}; }}\n')
    calls = " + ".join(f"f{it}()" for it in range(FILES))
    (folder / "main.c").write_text(f'#include <stdio.h>\n#include "all.h"\nint main(void) {{ printf("%d\\n", {calls}); return 0; }}\n')
    (folder / "all.h").write_text("".join(f"int f{it}(void);\n" for it in range(FILES)))
    (folder / "Makefile").write_text(MAKEFILE)
    (folder / ".gitignore").write_text("*.o\nprogram\n")


class Works:
    """The works, with what they take from the host and what the volume keeps of them from round to round."""

    def __init__(self, folder, seed):
        need("git", "make", "gcc", "fio", "tar", "diff")
        self.source, self.repository, self.draw = source_in(folder), folder / "project", random.Random(seed)
        self.rows = {}
        ran("git", "init", "-q", "-b", "main", self.repository)
        for commit in range(COMMITS):
            write_project(self.repository, commit)
            git_ran(self.repository, "add", "-A")
            git_ran(self.repository, "commit", "-q", "--allow-empty", "-m", f"commit {commit}")
            git_ran(self.repository, "tag", f"c{commit}")

    def project(self, at):
        """A clone of a small project in C: three commits are checked out and rebuilt, and what the program prints is that commit's."""
        clone = at / "clone"
        ran("git", "clone", "-q", "--no-local", self.repository, clone)
        for commit in self.draw.sample(range(COMMITS), 3):
            time.sleep(1.1)  # times are of whole seconds: make takes a file for built that was changed in the second in which it was built
            git_ran(clone, "checkout", "-q", f"c{commit}")
            ran("make", "-s", "-C", clone, "-j2")
            same("what the program prints", ran(clone / "program"), f"{sum(value(commit, it) for it in range(FILES))}\n")
            same("git status", git_ran(clone, "status", "--porcelain"), "")
        git_ran(clone, "fsck", "--full", "--strict")

    def archive(self, at):
        """An archive that is packed, unpacked, and compared with what it was made of."""
        tar(at, self.source)

    def copy(self, at):
        ran("cp", "-a", self.source, at / "tree")
        ran("diff", "-r", "--no-dereference", self.source, at / "tree")
        same_trees(self.source, at / "tree", with_times=False)

    def verified(self, at):
        """fio writes at random and looks at the sum of each block."""
        fio(at, None)

    def rows_kept(self, kept):
        """Some transactions over the rows of a file of sqlite that stays from round to round, beside the same rows in memory."""
        with_rows = sqlite3.connect(kept / "rows.db", isolation_level=None, timeout=600)
        try:
            with_rows.execute("create table if not exists t (a integer primary key, b text)")
            for _ in range(5):
                changed = {self.draw.randrange(500): f"{self.draw.getrandbits(64):x}" * 8 for _ in range(20)}
                with_rows.execute("begin")
                with_rows.executemany("insert or replace into t values (?, ?)", changed.items())
                with_rows.execute("commit")
                self.rows |= changed
            if with_rows.execute("pragma integrity_check").fetchall() != [("ok",)]:
                raise Wrong("sqlite finds its file broken")
            same("the rows", sorted(with_rows.execute("select a, b from t")) == sorted(self.rows.items()), True)
        except sqlite3.Error as error:
            raise Wrong(f"sqlite: {error}") from None
        finally:
            with_rows.close()

    def all(self):
        return {it.__name__: it for it in (self.project, self.archive, self.copy, self.verified)}


def remove(room):
    shutil.rmtree(room)
