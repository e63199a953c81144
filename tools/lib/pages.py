"""A program's --help as a page for man, and as completions for bash, zsh and fish."""
import re, subprocess

OPTION = re.compile(r" +(?:(-\w), )?(--[\w-]+)(?:(?: |\[=)<([^>]+)>\]?)?\s{2,}(.*)")
ARGUMENT = re.compile(r" +([<\[][\w-]+[>\]](?:\.\.\.)?) {2,}(.*)")
COMMAND = re.compile(r"  ([\w-]+) {2,}(.*)")


def run(name, path, *words):
    """What a program prints that is called by its name, wherever it lies."""
    return subprocess.run([name, *words], executable=path, capture_output=True, text=True, check=True).stdout


class Option:
    def __init__(self, short, long, value, help):
        self.short, self.long, self.value, self.help = short, long, value, help


class Help:
    """One --help: its sentence, the usage, the arguments, the options, the commands, and the text after them."""

    def __init__(self, text):
        self.about, self.usage, self.arguments, self.options, self.commands, self.end = "", "", [], [], [], []
        part = "about"
        text = re.sub(r"(?m)^( +(?:-\w, +)?--\S.*>|  -\w, --\S+|      --[\w-]+)\n {10,}(?=\S)", r"\1  ", text)
        for line in text.splitlines():
            if line.startswith("Usage: "):
                self.usage = line.removeprefix("Usage: ")
            elif line.endswith(":") and line.startswith(("Commands", "Arguments", "Options")):
                # (the commands can be in several groups)
                part = line.split()[0].strip(",:")
            elif line == "Examples:":
                part = "end"
                self.end.append(line)
            elif part == "about":
                self.about += line
            elif part == "end":
                self.end.append(line)
            elif part == "Options" and (it := OPTION.fullmatch(line)):
                self.options.append(Option(*it.groups()))
            elif part == "Arguments" and (it := ARGUMENT.fullmatch(line)):
                self.arguments.append(it.groups())
            elif part == "Commands" and (it := COMMAND.fullmatch(line)):
                # (help is of clap's own)
                self.commands += [it.groups()] if it[1] != "help" else []
            elif line:
                raise SystemExit(f"pages: this line of help is none that is known: {line!r}")


class Program:
    def __init__(self, name, path):
        self.name, self.version, self.help = name, run(name, path, "--version").split()[-1], Help(run(name, path, "--help"))
        self.commands = [(command, about, Help(run(name, path, command, "--help"))) for command, about in self.help.commands]
        # (its first word may be a file as well as a command)
        self.takes_files = bool(self.help.arguments)


# ---- the page for man


def roff(text):
    text = text.replace("\\", "\\e").replace("-", "\\-")
    return re.sub(r"(?m)^([.'])", r"\\&\1", text)


def roff_words(help):
    lines = []
    for name, said in help.arguments:
        lines += [".TP", f".I {roff(name)}", roff(said)]
    for it in help.options:
        marks = ", ".join(f"\\fB{roff(mark)}\\fR" for mark in (it.short, it.long) if mark)
        lines += [".TP", marks + (f" \\fI{roff(it.value)}\\fR" if it.value else ""), roff(it.help)]
    return lines


def roff_end(help):
    return [".PP", ".nf", *(roff(line) for line in help.end), ".fi"] if help.end else []


def man(program):
    lines = [
        f'.TH {program.name.upper()} 1 "" "{program.name} {program.version}" "Yellowadze 1541"',
        *(".SH NAME", f"{program.name} \\- {roff(program.help.about)}"),
        *(".SH SYNOPSIS", f".B {roff(program.help.usage)}"),
    ]
    if program.commands:
        lines.append(".SH COMMANDS")
    for name, about, help in program.commands:
        lines += [f".SS {roff(name)}", roff(about + "."), ".PP", f".B {roff(help.usage)}", *roff_words(help)]
        lines += roff_end(help)
    lines += [".SH OPTIONS", *roff_words(program.help), *roff_end(program.help)]
    return "\n".join(lines) + "\n"


# ---- completions


def marks_of(help):
    return " ".join(mark for it in help.options for mark in (it.short, it.long) if mark)


def bash(program):
    name = program.name
    cases = [f'        {command}) marks="{marks_of(help)}" ;;' for command, _, help in program.commands]
    commands = " ".join([*(command for command, _, _ in program.commands), *([] if program.takes_files else ["help"])])
    files = " -f" if program.takes_files else ""
    lines = [
        f"_{name}() {{",
        "    local word=${COMP_WORDS[COMP_CWORD]} command= marks= i",
        "    for ((i = 1; i < COMP_CWORD; i++)); do",
        "        [[ ${COMP_WORDS[i]} == -* ]] || { command=${COMP_WORDS[i]}; break; }",
        "    done",
        "    case $command in",
        *cases,
        f'        *) marks="{marks_of(program.help)}" ;;',
        "    esac",
        "    if [[ $word == -* ]]; then",
        '        COMPREPLY=($(compgen -W "$marks" -- "$word"))',
        "    elif [[ -z $command ]]; then",
        f'        COMPREPLY=($(compgen -W "{commands}"{files} -- "$word"))',
        "    else",
        "        local IFS=$'\\n'",
        '        COMPREPLY=($(compgen -f -- "$word"))',
        "    fi",
        "}",
        f"complete -o filenames -F _{name} {name}",
    ]
    return "\n".join(lines) + "\n"


def quoted(text):
    return "'" + text.replace("'", "'\\''") + "'"


def zsh_option(it):
    said = re.sub(r"([\[\]:\\])", r"\\\1", it.help)
    value = ":" + re.sub(r"([\[\]:])", r"\\\1", it.value) + ":_files" if it.value else ""
    if it.short:
        return quoted(f"({it.short} {it.long})") + "{" + f"{it.short},{it.long}" + "}" + quoted(f"[{said}]{value}")
    return quoted(f"{it.long}[{said}]{value}")


def zsh_words(help):
    return " ".join([*(zsh_option(it) for it in help.options), quoted("*:file:_files")])


def zsh(program):
    name = program.name
    described = [f"        {quoted(command + ':' + about.replace(':', chr(92) + ':'))}" for command, about, _ in program.commands]
    cases = [f"        {command}) shift words; (( CURRENT-- )); _arguments {zsh_words(help)} ;;" for command, _, help in program.commands]
    lines = [f"#compdef {name}", f"_{name}() {{"]
    if program.commands:
        lines += ["    local -a commands", "    commands=(", *described, "    )"]
        lines += ["    if (( CURRENT == 2 )); then", "        _describe command commands", f"        _arguments {zsh_words(program.help)}", "        return", "    fi"]
        lines += ["    case $words[2] in", *cases, f"        *) _arguments {zsh_words(program.help)} ;;", "    esac"]
    else:
        lines += [f"    _arguments {zsh_words(program.help)}"]
    return "\n".join([*lines, "}", f'_{name} "$@"']) + "\n"


def fish_options(start, help):
    for it in help.options:
        short = f" -s {it.short[1:]}" if it.short else ""
        value = " -r" if it.value else ""
        yield f"{start}{short} -l {it.long[2:]}{value} -d {fish_quoted(it.help)}"


def fish_quoted(text):
    return "'" + text.replace("\\", "\\\\").replace("'", "\\'") + "'"


def fish(program):
    name = program.name
    lines = []
    for command, about, help in program.commands:
        alone = "" if program.takes_files else " -f"
        lines.append(f"complete -c {name} -n __fish_use_subcommand{alone} -a {command} -d {fish_quoted(about)}")
        lines += fish_options(f"complete -c {name} -n '__fish_seen_subcommand_from {command}'", help)
    alone = " -n __fish_use_subcommand" if program.commands else ""
    lines += fish_options(f"complete -c {name}{alone}", program.help)
    return "\n".join(lines) + "\n"
