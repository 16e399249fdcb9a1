"""The files of a package: by its path each one's bytes."""
import gzip, pathlib, posixpath, re, textwrap, time
from .common import DOC, MAKER, NAME, PROGRAMS, ROOT, SCRIPTS, refuse, run, said, told
from .help_words import Help, bash_completion, zsh_completion

PAGES = ("README.md", *(f"docs/{it}.md" for it in ("CALLS", "FAULTS", "FORMAT", "LIMITS", "MOUNT", "PROGRAMS", "SPEED")))
LINK = re.compile(r"\[([^\]]*)\]\(([^)\s]+)\)")
RIGHTS = """{name} {version}

Copyright {year} {maker}

All rights reserved. The repository of Lecternowl names no licence: nobody is
given the right to copy, change or distribute it, or these programs, but by
its owners.

The programs hold code of libraries of {kit}.
Of these, the following have a notice of their own; the others have none.
"""


def content_of(release):
    """All files by their paths, which begin with `usr/`."""
    files = {f"usr/bin/{name}": data for name, data in release.packed.items()}
    files |= {f"usr/share/man/man1/{it}.1.gz": zipped((ROOT / "man" / f"{it}.1").read_bytes()) for it in PROGRAMS}
    files |= {f"usr/bin/{it}": script(at) for it, at in SCRIPTS.items()}
    files |= {f"usr/share/man/man1/{it}.1.gz": zipped((ROOT / "man/mfs-mount.1").read_bytes()) for it in SCRIPTS}
    files |= {f"{DOC}/{it}": without_dead_links(it).encode() for it in PAGES}
    files |= {f"{DOC}/examples/{it}": (ROOT / "examples" / it).read_bytes() for it in tracked("examples")}
    for name, place in release.programs.items():
        words = help_of(name, place)
        files[f"usr/share/bash-completion/completions/{name}"] = bash_completion(name, words).encode()
        files[f"usr/share/zsh/vendor-completions/_{name}"] = zsh_completion(name, words).encode()
    files[f"{DOC}/VERSION"] = release.text().encode()
    files[f"{DOC}/copyright"] = copyright_of(release).encode()
    files[f"{DOC}/changelog.gz"] = zipped((ROOT / "CHANGELOG.md").read_bytes())
    return files


# A line that imports from bin/fuse_parts, with the one before it, which a single file doesn't need.
IMPORT = re.compile(r"^(?:sys\.dont_write_bytecode = True\n)?from (?:fuse_parts)?\.(\w+) import [\w, ]+\n", re.M)


def with_parts(text):
    """A script, with each module of bin/fuse_parts in the place of the line that imports it."""
    part = lambda it: (ROOT / f"bin/fuse_parts/{it[1]}.py").read_text(encoding="utf-8").split('"""\n', 1)[1]
    return IMPORT.sub(lambda it: with_parts(part(it)), text)


def script(name):
    """A script of bin/ as one file, under the names that it and its program have in a package."""
    text = with_parts((ROOT / "bin" / name).read_text(encoding="utf-8"))
    for packed, ours in SCRIPTS.items():
        text = re.sub(rf"\bbin/{ours}\b", packed, text)
    return re.sub(r"^#!/usr/bin/env (?:-S )?python3", "#!/usr/bin/python3", text).encode()


def zipped(data):
    """What `gzip -9n` makes of bytes: no time and no name stand in it."""
    return gzip.compress(data, 9, mtime=0)


def tracked(folder):
    """The names of a folder's files that git knows."""
    return [pathlib.PurePosixPath(it).name for it in told(["git", "-C", ROOT, "ls-files", folder]).splitlines()]


def help_of(name, program):
    """The words that a program says by --help."""
    done = run([program, "--help"])
    words = Help.read(done.stdout.decode("utf-8", "replace"))
    if done.returncode != 0 or not words.options or not words.arguments:
        refuse(f"{name} --help doesn't list its options and arguments: {said(done)}")
    return words


def without_dead_links(page):
    """A page's text, where of each link to a file that isn't in the package its text alone is left."""

    def kept(found):
        target = found[2].split("#")[0]
        place = posixpath.normpath(posixpath.join(posixpath.dirname(page), target)) if target else page
        is_there = place in PAGES or place in examples or "://" in target
        return found[0] if is_there else found[1]

    examples = {f"examples/{it}" for it in tracked("examples")}
    return LINK.sub(kept, (ROOT / page).read_text(encoding="utf-8"))


def kit_libraries(kit):
    """The libraries of the kit whose code is in the programs, by crates.txt and by what the kit's own stand on."""
    needs = {}
    for line in (ROOT / "crates.txt").read_text(encoding="utf-8").splitlines():
        head, colon, names = line.split("#")[0].partition(":")
        if colon:
            needs[head.split()[0]] = names.split()
    todo, seen = list(PROGRAMS), set()
    while todo:
        name = todo.pop()
        if name not in seen:
            seen.add(name)
            below = kit / "rlibs" / f"{name}.rlib" / "below"
            todo += needs.get(name) or (sorted(it.name for it in below.glob("*")) if name not in needs else [])
    return sorted(seen - set(needs))


def kit_folder():
    """The folder of the kit, by the page that `rt doc` names."""
    return pathlib.Path(told(["rt", "doc"])).parent


def notice_of(folder):
    """The licence under which the library of a folder is taken, where it has one: MIT's, where it may be chosen."""
    for name in ("LICENSE-MIT", "LICENSE"):
        if (folder / name).is_file():
            return (folder / name).read_text(encoding="utf-8").strip()
    return ""


def copyright_of(release):
    """The file copyright: whose Lecternowl is, and the notices of what the programs hold of others."""
    year = time.gmtime(release.seconds).tm_year
    text = RIGHTS.format(name=NAME, version=release.version, year=year, maker=MAKER, kit=release.kit)
    kit = kit_folder()
    notices = {it: notice_of(kit / "rattle" / it) for it in kit_libraries(kit)}
    return text + "".join(f"\n\n{it}\n{'-' * len(it)}\n\n{notice}\n" for it, notice in notices.items() if notice)


def debian_changelog(release):
    """The changes of CHANGELOG.md, as Debian has them: of the version's section each item."""
    sections = re.split(r"^## ", (ROOT / "CHANGELOG.md").read_text(encoding="utf-8"), flags=re.M)
    section = next((it for it in sections if it.split()[:1] == [release.version]), None)
    if section is None:
        refuse(f"CHANGELOG.md has no section of {release.version}")
    items = [" ".join(it.replace("**", "").split()) for it in re.split(r"^- ", section, flags=re.M)[1:]]
    lines = [textwrap.fill(it, 78, initial_indent="  * ", subsequent_indent="    ", break_on_hyphens=False) for it in items]
    date = time.strftime("%a, %d %b %Y %H:%M:%S +0000", time.gmtime(release.seconds))
    return f"{NAME} ({release.version}) UNRELEASED; urgency=medium\n\n" + "\n".join(lines) + f"\n\n -- {MAKER}  {date}\n"
