"""The program's manual page and its completions for bash, both made of what `--help` prints, so that they cannot
say anything else: a part of tools/package. It is no script of its own."""
import re
import subprocess

SECTIONS = ("Arguments", "Options", "Commands")
# A value of a few words, as the help lists them at the end of a line: 'plain or demo', 'shift, receipt or totals'.
CLOSED = re.compile(r"(?:^|: )((?:\w+, )*\w+ or \w+)(?: \[default: \w+\])?$")
FILE_VALUES = ("FILE", "CSV")


class Help:
    """What one command prints for --help: what it does, its usage, its lists, and what follows them."""

    def __init__(self, text):
        self.about, self.usage, self.tail = [], "", []
        self.lists = {name: [] for name in SECTIONS}
        section = None
        for line in text.splitlines():
            if line.startswith("Usage: "):
                self.usage = line[len("Usage: "):]
            elif line.rstrip(":") in SECTIONS and line.endswith(":"):
                section = line[:-1]
            elif section and line.startswith("  "):
                names, _, words = line.strip().partition("  ")
                if not words:
                    raise SystemExit(f"package: the help has a line of another form: {line}")
                self.lists[section].append((names.strip(), words.strip()))
            elif line:
                (self.tail if self.usage else self.about).append(line)
        if not self.about or not self.usage:
            raise SystemExit(f"package: the help has another form: {text}")


def help_of(program, *words):
    ran = subprocess.run([program, *words, "--help"], capture_output=True, text=True, stdin=subprocess.DEVNULL)
    if ran.returncode != 0 or ran.stderr:
        raise SystemExit(f"package: {program} {' '.join(words)} --help: {ran}")
    return ran.stdout


def helps_of(program):
    """The help of the program, and that of each of its commands by name."""
    whole = Help(help_of(program))
    names = [name for name, _ in whole.lists["Commands"] if name != "help"]
    return whole, {name: Help(help_of(program, name)) for name in names}


def roff(text):
    """A line of text as troff reads it."""
    text = text.replace("\\", r"\e").replace("-", r"\-").replace("'", r"\(aq")
    return r"\&" + text if text[:1] == "." else text


def listed(entries):
    lines = []
    for names, words in entries:
        lines += [".TP", rf"\fB{roff(names)}\fR", roff(words)]
    return lines


def exit_status(whole):
    """The line of the help that tells the exit statuses, as a list."""
    said = [line for line in whole.tail if line.startswith("Exit status: ")]
    if len(said) != 1:
        raise SystemExit("package: the help says nothing of the exit status")
    lines = []
    for part in said[0][len("Exit status: "):].rstrip(".").split("; "):
        number, _, words = part.partition(" ")
        lines += [".TP", rf"\fB{roff(number)}\fR", roff(words)]
    return lines


def manual_page(program, version, date, files, others):
    """The page vend(1). `files` are pairs of a file and what it is, `others` the pages beside it."""
    whole, commands = helps_of(program)
    about = whole.about[0][0].lower() + whole.about[0][1:]
    lines = [f'.TH VEND 1 "{date}" "vend {version}" "Wiretick"', ".nh", ".SH NAME", rf"vend \- {roff(about)}",
             ".SH SYNOPSIS"]
    for it in commands.values():
        lines += [rf"\fB{roff(it.usage)}\fR", ".br"]
    lines += [".SH DESCRIPTION", *(roff(line) + "." for line in whole.about)]
    lines += [line for text in whole.tail if not text.startswith("Exit status: ") for line in (".PP", roff(text))]
    lines += [".PP", "Options of the program itself:", *listed(whole.lists["Options"])]
    lines.append(".SH COMMANDS")
    for name, it in commands.items():
        lines += [f".SS {roff(name)}", *(roff(line) + "." for line in it.about), ".PP", rf"\fB{roff(it.usage)}\fR"]
        lines += [*listed(it.lists["Arguments"]), *listed(it.lists["Options"])]
    lines += [".SH EXIT STATUS", *exit_status(whole), ".SH FILES", *listed(files), ".SH SEE ALSO",
              ", ".join(rf"\fB{roff(other)}\fR({section})" for other, section in others)]
    return "\n".join(lines) + "\n"


def script_page(name, section, text, version, date):
    """The page of a script, made of its help: the usage, and then paragraphs."""
    usage, _, body = text.partition("\n\n")
    uses = [line.strip() for line in usage.removeprefix("Usage:").splitlines()]
    first = " ".join(body.split("\n\n")[0].split()).split(". ")[0].rstrip(".")
    lines = [f'.TH {name.upper()} {section} "{date}" "vend {version}" "Wiretick"', ".nh", ".SH NAME",
             rf"{roff(name)} \- {roff(first[0].lower() + first[1:])}", ".SH SYNOPSIS"]
    for use in uses:
        lines += [rf"\fB{roff(use)}\fR", ".br"]
    lines.append(".SH DESCRIPTION")
    for paragraph in body.strip().split("\n\n"):
        if paragraph.startswith("Exit status: "):
            lines.append(".SH EXIT STATUS")
            paragraph = paragraph[len("Exit status: "):]
        if paragraph.startswith("  "):
            lines += listed((names.strip(), words.strip()) for names, words in
                            (re.split(r"  +", line.strip(), maxsplit=1) for line in paragraph.splitlines()))
        else:
            lines += [".PP", *map(roff, paragraph.splitlines())]
    return "\n".join([*lines, ".SH SEE ALSO", r"\fBvend\fR(1)"]) + "\n"


def values_of(words):
    """The values that a line of the help lists, if it lists them all."""
    found = CLOSED.search(words)
    return found[1].replace(",", "").replace(" or ", " ").split() if found else []


def completions(program):
    """A script for bash that completes commands, options, values and names of files."""
    whole, commands = helps_of(program)
    own = " ".join(option_names(whole))
    cases, options, places, files = [], [], [], []
    for name, it in commands.items():
        options.append(f"        {name}) options='{' '.join(option_names(it))}' ;;")
        for names, words in it.lists["Options"]:
            option, _, value = names.split(", ")[-1].partition(" ")
            closed = values_of(words)
            if closed:
                cases.append(f"        '{name} {option}') values='{' '.join(closed)}' ;;")
            elif value.strip("<>") in FILE_VALUES:
                cases.append(f"        '{name} {option}') files=yes ;;")
            elif value:
                cases.append(f"        '{name} {option}') return ;;")
        closed = [value for _, words in it.lists["Arguments"] for value in values_of(words)]
        if closed:
            places.append(f"        {name}) values='{' '.join(closed)}' ;;")
        if any(names.strip("<>.") in FILE_VALUES for names, _ in it.lists["Arguments"]):
            files.append(name)
    return f"""# Completions of vend for bash, made of what its help prints.
_vend() {{
    local word=${{COMP_WORDS[COMP_CWORD]}} before=${{COMP_WORDS[COMP_CWORD - 1]}} command=${{COMP_WORDS[1]}}
    local options= values= files=
    COMPREPLY=()
    if [ "$COMP_CWORD" -eq 1 ]; then
        COMPREPLY=($(compgen -W '{" ".join(commands)} help {own}' -- "$word"))
        return
    fi
    case "$command $before" in
{chr(10).join(cases)}
    esac
    if [ -z "$values$files" ]; then
        case $command in
            help) values='{" ".join(commands)}' ;;
{chr(10).join("    " + line for line in options)}
        esac
        if [[ $word == -* ]]; then
            values=$options
        else
            case $command in
{chr(10).join("        " + line for line in places)}
            esac
            case $command in
                {" | ".join(files) or "''"}) files=yes ;;
            esac
            [ -n "$values$files" ] || values=$options
        fi
    fi
    COMPREPLY=($(compgen -W "$values" -- "$word"))
    if [ -n "$files" ]; then
        compopt -o filenames 2>/dev/null
        local name
        while IFS= read -r name; do COMPREPLY+=("$name"); done < <(compgen -f -- "$word")
    fi
}}
complete -F _vend vend
"""


def option_names(it):
    return [name.split(" ")[0] for names, _ in it.lists["Options"] for name in names.split(", ")
            if name.startswith("--")]
