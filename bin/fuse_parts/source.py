"""What programs copy, pack and commit on a volume."""
import os, pathlib, shutil

ROOT = pathlib.Path(__file__).resolve().parent.parent.parent


def source_in(folder):
    """A folder with files of this repository, one of every byte, an empty one, links and times; it is made where it isn't there."""
    source = folder / "source"
    if not source.exists():
        source.mkdir()
        for it in ("docs", "bin", "man", "examples"):
            shutil.copytree(ROOT / it, source / it, symlinks=True)
        for at in sorted((ROOT / "crates").glob("*/README.md")):
            (source / "pages" / at.parent.name).mkdir(parents=True)
            shutil.copy2(at, source / "pages" / at.parent.name)
        (source / "blob").write_bytes(bytes((at * 7 + at // 251) & 255 for at in range(150_001)))
        (source / "empty").touch()
        os.symlink("docs/MOUNT.md", source / "link")
        os.symlink("none", source / "dangling")
        os.link(source / "blob", source / "hard")
        os.utime(source / "docs", (1_000_000_000, 1_234_567_890))
    return source


def project_in(folder):
    """A small project in C, for make: a program of five files."""
    folder.mkdir(exist_ok=True)
    for it in range(1, 5):
        (folder / f"f{it}.c").write_text(f"int f{it}(int x) {{ return x + {it}; }}\n")
    calls = "".join(f"int f{it}(int); " for it in range(1, 5))
    (folder / "main.c").write_text(f'#include <stdio.h>\n{calls}\nint main(void) {{ printf("%d\\n", f1(f2(f3(f4(0))))); return 0; }}\n')
    (folder / "Makefile").write_text("CFLAGS = -O2\nprogram: main.o f1.o f2.o f3.o f4.o\n\t$(CC) -o $@ $^\n")
