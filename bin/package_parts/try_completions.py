"""Whether the installed completions propose the words that --help has."""
import re, shutil
from .common import PROGRAMS, run, said

# Prints what bash proposes where the cursor stands behind the words after NAME, and `files` where it proposes names of files too.
BASH = """
compopt() { [ "$*" != '+o default' ] || files=; }
files=files
. "$1"
COMP_WORDS=("${@:2}") COMP_CWORD=$(($# - 2))
set -- $(complete -p "$2")
while [ "$1" != -F ]; do shift; done
"$2"
[ ${#COMPREPLY[@]} -gt 0 ] && files= && printf '%s\\n' "${COMPREPLY[@]}"
[ -z "$files" ] || echo files
"""
# Prints the words that zsh's _arguments is handed, and by which function zsh completes the program.
ZSH = """
fpath=($1 $fpath)
autoload -Uz compinit && compinit -D -u
print -r -- "$_comps[$2]"
_arguments() { print -rl -- "$@" }
source $1/_$2
"""


def told_words(text):
    """Of the text of --help: each option's names with what stands behind them, its value's name or nothing; and the arguments."""
    options = {}
    for line in re.search(r"^Options:\n((?: .*\n?)*)", text, re.M)[1].splitlines():
        words = re.split(r"\s{2,}", line.strip())[0]
        value = re.search(r"<(\w+)>", words)
        options |= {it: value[1] if value else "" for it in re.findall(r"(?<![\w-])--?[a-zA-Z][\w-]*", words)}
    return options, re.findall(r"^  <(\w+)>", text, re.M)


def proposed(root, name, *words):
    """What bash proposes behind a program's name and these words, of which the cursor is at the last."""
    page = root.folder / "usr/share/bash-completion/completions" / name
    done = run(["bash", "--norc", "--noprofile", "-c", BASH, "bash", page, name, *words])
    return done.stdout.decode().split() if not done.stderr else [said(done)]


def try_bash(tally, root, name, text):
    """Behind each word bash proposes what may stand there."""
    options, arguments = told_words(text)
    found = proposed(root, name, "-")
    tally.judge(f"bash: {name} -", "" if sorted(found) == sorted(options) else f"{found}, and --help has {list(options)}")
    wrong = []
    for option, value in options.items():
        line = re.search(rf"^.*{option}(?: <|  ).*$", text, re.M)
        numbers = re.search(r": ([\d, ]+ or \d+)", line[0]) if line and value else None
        wanted = re.findall(r"\d+", numbers[1]) if numbers else ["files"] if value == "FILE" or not value else []
        found = proposed(root, name, option, "")
        wrong += [f"{option}: {found}, not {wanted}"] if found != wanted else []
    tally.judge(f"bash: {name}, behind each option", "; ".join(wrong))
    found = proposed(root, name, "")
    tally.judge(f"bash: {name}, files for {' '.join(arguments)}", "" if found == ["files"] else f"{found}")


def try_zsh(tally, root, name, text):
    """zsh knows the program, and hands its completion the words of --help."""
    options, arguments = told_words(text)
    done = run(["zsh", "-f", "-c", ZSH, "zsh", root.folder / "usr/share/zsh/vendor-completions", name])
    by, *specs = done.stdout.decode().splitlines() or [""]
    tally.judge(f"zsh: {name} is completed by _{name}", "" if by == f"_{name}" and not done.stderr else said(done))
    found, places = {}, []
    for spec in specs:
        if option := re.match(r"(?:\([^)]*\))?(--?[\w-]+)=?\[.*?(?<!\\)\](?::(\w+):.*)?$", spec):
            found[option[1]] = option[2] or ""
        elif place := re.match(r"(?:\d|\*):(\w+):_files$", spec):
            places.append(place[1])
        else:
            found[spec] = "?"
    tally.judge(f"zsh: {name} has the options of --help", "" if found == options else f"{found}, and --help has {options}")
    tally.judge(f"zsh: {name} has files for {' '.join(arguments)}", "" if places == arguments else f"{places}")


def try_completions(tally, root):
    for name in PROGRAMS:
        text = root.run([f"/usr/bin/{name}", "--help"], cwd="/").stdout.decode()
        try_bash(tally, root, name, text)
        if shutil.which("zsh"):
            try_zsh(tally, root, name, text)
    if not shutil.which("zsh"):
        tally.skip("zsh's completions", "there is no zsh")
