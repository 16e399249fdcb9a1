"""What a program says by --help, and completions made of it."""
import re
from dataclasses import dataclass, field

OPTION = re.compile(r"  (?:(-\w)(?:, )?|    )(--[\w-]+)?(?: <(\w+)>)?(?:  +(.*))?$")
ARGUMENT = re.compile(r"  <(\w+)>(\.\.\.)?(?:  +(.*))?$")
CHOICES = re.compile(r": (\d+(?:, \d+)* or \d+)\b")
# What completes the value of each name that stands for a file; other values are numbers, for which nothing is proposed.
FILES = ("IMAGE", "SCRIPT", "SCHEDULE", "OLD", "NEW", "FILE")


@dataclass
class Option:
    names: list  # as --help has them, the short one first
    value: str  # the name of its value; empty where it has none
    text: str

    def choices(self):
        """The numbers that are all its value may be, where the text names them."""
        found = CHOICES.search(self.text) if self.value else None
        return re.findall(r"\d+", found[1]) if found else []


@dataclass
class Argument:
    name: str
    repeats: bool
    text: str


@dataclass
class Help:
    """What a program says by --help of its words."""

    options: list = field(default_factory=list)
    arguments: list = field(default_factory=list)

    @classmethod
    def read(cls, text):
        found, part = cls(), ""
        for line in text.splitlines():
            if not line.startswith(" "):
                part = line or part
            elif part == "Options:" and (it := OPTION.match(line)):
                found.options.append(Option([name for name in (it[1], it[2]) if name], it[3] or "", it[4] or ""))
            elif part == "Arguments:" and (it := ARGUMENT.match(line)):
                found.arguments.append(Argument(it[1], bool(it[2]), it[3] or ""))
        return found


def cases(options):
    """The lines of a shell's `case`, of each option that has a value. Where nothing is proposed, `complete -o default` proposes files."""
    for option in options:
        if choices := option.choices():
            yield f"        {'|'.join(option.names)}) COMPREPLY=($(compgen -W '{' '.join(choices)}' -- \"$word\")); return ;;"
        elif option.value in FILES:
            yield f"        {'|'.join(option.names)}) return ;;"
        elif option.value:
            yield f"        {'|'.join(option.names)}) compopt +o default; return ;;"


def bash_completion(name, words):
    """The completion of a program for bash."""
    names = " ".join(it for option in words.options for it in option.names)
    lines = [
        f"# Completion of {name} for bash, made of what `{name} --help` says.",
        f"_lecternowl_{name}()",
        "{",
        "    local word=${COMP_WORDS[COMP_CWORD]} before=${COMP_WORDS[COMP_CWORD-1]}",
        "    COMPREPLY=()",
        "    case $before in",
        *cases(words.options),
        "    esac",
        f"    case $word in -*) COMPREPLY=($(compgen -W '{names}' -- \"$word\")) ;; esac",
        "}",
        f"complete -o default -F _lecternowl_{name} {name}",
    ]
    return "\n".join(lines) + "\n"


def quoted(text):
    """A text within the quotes and brackets of zsh's _arguments."""
    return re.sub(r"([\[\]:\\])", r"\\\1", text).replace("'", r"'\''")


def zsh_action(value, choices=()):
    return f":{value}:" + ("_files" if value in FILES else f"({' '.join(choices)})" if choices else "") if value else ""


def zsh_specs(words):
    """The words of zsh's _arguments, one for each option and argument."""
    for option in words.options:
        text, value = quoted(option.text), zsh_action(option.value, option.choices())
        if len(option.names) > 1:
            yield f"'(- *)'{{{','.join(option.names)}}}'[{text}]{value}'"
        else:
            yield f"'{option.names[0]}{'=' if value else ''}[{text}]{value}'"
    for place, argument in enumerate(words.arguments, 1):
        yield f"'{'*' if argument.repeats else place}{zsh_action(argument.name)}'"


def zsh_completion(name, words):
    """The completion of a program for zsh."""
    head = [f"#compdef {name}", f"# Completion of {name} for zsh, made of what `{name} --help` says.", "_arguments \\"]
    return "\n".join(head) + "\n" + " \\\n".join(f"    {it}" for it in zsh_specs(words)) + "\n"
