"""Whether the installed man pages are shown, and all that pages name is there."""
import gzip, os, re, shutil
from .common import DOC, NAME, PROGRAMS, SCRIPTS, run, told

SHOWERS = ("man", "mandoc", "groff")
WHERE = {"PATH": os.environ.get("PATH", ""), "LC_ALL": "C.UTF-8", "MANWIDTH": "80", "MAN_KEEP_FORMATTING": "1", "TERM": "dumb"}


def shown(command, page):
    """What a command shows of a page, which is zipped."""
    text = gzip.decompress(page.read_bytes())
    words = {
        "man": ["man", "--warnings", "--local-file", page],
        "mandoc": ["mandoc", "-T", "utf8", "-W", "error"],
        "groff": ["groff", "-mandoc", "-Tutf8", "-ww"],
    }[command]
    return run(words, env=WHERE, **({} if command == "man" else {"input": text}))


def plain(text):
    """A shown text without what makes letters bold or underlined."""
    return re.sub(r"\x1b\[[0-9;]*m|.\x08", "", text.decode("utf-8", "replace"))


def try_man(tally, root):
    """Each command of the machine shows each page without a warning."""
    for command in SHOWERS:
        if not shutil.which(command):
            tally.skip(f"{command} shows the man pages", f"there is no {command}")
            continue
        for name in (*PROGRAMS, *SCRIPTS):
            done = shown(command, root.folder / f"usr/share/man/man1/{name}.1.gz")
            text = plain(done.stdout)
            wanted = ("NAME", f"{name}[, ].*[–—-] ", "SYNOPSIS", "--help", "EXIT STATUS", "DIAGNOSTICS")
            lacks = [it for it in wanted if not re.search(it, text)]
            warnings = " ".join(done.stderr.decode("utf-8", "replace").split())
            fault = warnings or (f"status {done.returncode}" if done.returncode != 0 else f"lacks {lacks}" if lacks else "")
            tally.judge(f"{command} shows {name}(1) without a warning", fault)


def dead_links(root):
    """The links of the installed pages that lead to no installed file, and the pages that a man page names and that aren't there."""
    for page in sorted((root.folder / DOC).rglob("*.md")):
        for target in re.findall(r"\]\(([^)\s#]+)[^)\s]*\)", page.read_text(encoding="utf-8")):
            if "://" not in target and not (page.parent / target).exists():
                yield f"{page.name}: {target}"
    for name in (*PROGRAMS, *SCRIPTS):
        text = gzip.decompress((root.folder / f"usr/share/man/man1/{name}.1.gz").read_bytes()).decode()
        yield from (f"{name}.1: {it}" for it in re.findall(r"\b(?:docs|examples)/[\w.-]*\w", text) if not (root.folder / DOC / it).exists())
        others = re.findall(r"^\.Xr ([\w-]+) 1", text, re.M)
        yield from (f"{name}.1: {it}(1)" for it in others if not (root.folder / f"usr/share/man/man1/{it}.1.gz").exists())


def try_pages(tally, packages, root):
    try_man(tally, root)
    dead = list(dead_links(root))
    tally.judge("what pages and man pages name is there", "; ".join(dead))
    text = (root.folder / DOC / "VERSION").read_text()
    right = text.startswith(f"{NAME} {packages.version}\ncommit {packages.commit}") and f"\nkit {told(['rt', 'version'])}\n" in text
    tally.judge("VERSION has the version, the commit and the kit", "" if right else text.replace("\n", "; "))
