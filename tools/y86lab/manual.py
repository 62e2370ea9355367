"""The table of all programs, their commands and options: for the help, the man pages and the completions of shells."""
from __future__ import annotations

import argparse
from dataclasses import dataclass, field, replace
from typing import Sequence


@dataclass(frozen=True)
class Option:
    """An option, what it takes (empty: nothing), and what it does."""

    name: str
    value: str
    summary: str
    is_needed: bool = False


@dataclass(frozen=True)
class Form:
    """A command of a program, or the program itself if the name is empty: its arguments and options."""

    name: str
    words: str
    options: tuple[Option, ...]
    summary: str
    parts: tuple[Form, ...] = field(default=())
    """The commands of a command, such as `aig cnf`."""


@dataclass(frozen=True)
class Program:
    name: str
    summary: str
    page: str
    forms: tuple[Form, ...]
    statuses: tuple[tuple[int, str], ...] = field(default=())


FULL = Option("--full", "", "iaddq is one of the instructions")
MEM = Option("--mem", "N", "the size of the memory in bytes: a multiple of 8 from 64 to 1048576; 8192 if absent")
LIMIT = Option("--limit", "N", "the most steps or cycles: 1 to 100000000; 10000 if absent")
TRACE = Option("--trace", "", "a line for each instruction that retires")
CHECKED = Option("--checked", "", "the check's answer first; after a no nothing else")
CERT = Option("--cert", "", "check pipe: a certificate in place of a yes")
FROM = Option("--from", "N", "the first cycle to show")
TO = Option("--to", "N", "the last cycle to show")
DIAGRAM = Option("--diagram", "", "a diagram: a row for each instruction, a column for each cycle")
SEQ = Option("--seq", "", "SEQ in place of PIPE")
SEQ_PLUS = Option("--seqplus", "", "SEQ+ in place of PIPE")
JSON = Option("--json", "", "the answer as JSON")
UNCHECKED = Option("--unchecked", "", "don't ask the check whether the theorem covers the run")

STATUSES = (
    (0, "done; a run ended at a halt"),
    (
        1,
        "a run ended with another status, or at its limit; a check ended with no; a sample found something; "
        "the reports of big differ",
    ),
    (2, "the arguments are invalid"),
    (3, "a file could not be read"),
    (4, "standard output could not be written"),
    (5, "a file has a fault"),
    (6, "out of memory"),
    (7, "a file is too long"),
)
TELL_STATUSES = (
    (0, "done; check: yes; run: both runs end alike"),
    (
        1,
        "check: no; program: it doesn't find that the theorem covers the program; "
        "run: the runs differ, or one reaches its limit; show: there is no such word",
    ),
    *STATUSES[2:],
)

Y86 = Program(
    "y86",
    "the Y86-64 workbench: assembles, runs and checks",
    "docs/COMMANDS.md",
    (
        Form("yas", "ASM", (FULL, MEM), "prints the object file of an assembly file"),
        Form("yis", "OBJ", (FULL, MEM, LIMIT), "runs an object file, one instruction after another"),
        Form("hcl", "HCL", (), "prints an HCL file in one standard layout"),
        Form("ssim", "HCL OBJ", (FULL, MEM, LIMIT), "runs an object file on SEQ"),
        Form("ssimp", "HCL OBJ", (FULL, MEM, LIMIT), "runs an object file on SEQ+"),
        Form("psim", "HCL OBJ", (FULL, MEM, LIMIT, TRACE, CHECKED), "runs an object file on PIPE"),
        Form("big", "N HCL", (FULL,), "runs a random program of N instructions, one after another and on PIPE"),
        Form("check", "seq|seqplus|pipe HCL", (FULL, CERT), "decides whether the file meets the obligations"),
        Form("recheck", "HCL CERT", (FULL,), "checks a certificate of the file"),
        Form("sample", "HCL SEED COUNT", (FULL,), "tries PIPE's obligations at COUNT random situations from SEED"),
        Form("aig", "HCL", (FULL,), "writes the obligations of PIPE in AIGER"),
        Form("aigrun", "AAG SEED", (), "runs an AIGER file on 512 vectors"),
    ),
    STATUSES,
)
STAGES = Program(
    "y86-stages",
    "shows the stages of a processor, cycle by cycle",
    "docs/STAGES.md",
    (
        Form(
            "",
            "HCL OBJ",
            (SEQ, SEQ_PLUS, FULL, MEM, LIMIT, FROM, TO, DIAGRAM),
            "shows the run of an object file on PIPE",
        ),
    ),
    STATUSES,
)
TELL = Program(
    "y86-tell",
    "says in sentences what is wrong with a file, a program or a run",
    "docs/TELL.md",
    (
        Form("check", "seq|seqplus|pipe HCL", (FULL, JSON), "says why the check refuses a file, and what repairs it"),
        Form("fault", "FILE [seq|seqplus|pipe]", (FULL, MEM, JSON), "says all that is wrong with a file"),
        Form("program", "OBJ", (FULL, MEM, LIMIT), "says whether the theorem covers a program"),
        Form("run", "HCL OBJ", (FULL, MEM, LIMIT, JSON, UNCHECKED), "says where a program goes wrong on a pipeline"),
        Form("show", "[WORD]", (JSON,), "says what an obligation, an instruction, a signal or a kind of fault is"),
    ),
    TELL_STATUSES,
)
RECHECK = Program(
    "tools/y86-recheck",
    "a second checker of certificates, in one file that is meant to be read",
    "docs/CERTIFICATES.md",
    (Form("", "CERT [AAG]", (), "checks a certificate, and whether it shows the outputs of an AIGER file to be 0"),),
)
PROVE = Program(
    "prove",
    "proves the programs and builds them",
    "README.md",
    (
        Form(
            "",
            "",
            (
                Option("--to", "FOLDER", "put what a class needs into a folder"),
                Option("--without-solutions", "", "with --to: leave out what solves an exercise of the book"),
                Option("--page", "FILE", "make the workbench for a browser"),
                Option("--unproved-page", "FILE", "prove nothing, and make the workbench from the sources as they are"),
            ),
            "proves and builds",
        ),
    ),
)
BESIDE = (Y86, STAGES, TELL, RECHECK, PROVE)


def program_of(parser: argparse.ArgumentParser, commands: dict[str, argparse.ArgumentParser]) -> Program:
    """The lab itself, read off its parsers."""
    forms = tuple(form_of(name, command) for name, command in commands.items())
    return Program(parser.prog, parser.description or "", "docs/LAB.md", forms)


def form_of(name: str, parser: argparse.ArgumentParser) -> Form:
    words, options = [], []
    parts: tuple[Form, ...] = ()
    for action in parser._actions:  # pylint: disable=protected-access
        if isinstance(action, argparse._SubParsersAction):  # pylint: disable=protected-access
            words.append("|".join(action.choices or ()))
            parts = parts_of(name, action)
            options += [option for part in parts for option in part.options if option.name != "--help"]
        elif action.option_strings:
            value = str(action.metavar or "|".join(action.choices or ())) if action.nargs != 0 else ""
            options.append(Option(action.option_strings[-1], value, action.help or "", action.required))
        else:
            words.append(word_of(action))
    return Form(name, " ".join(words), tuple(options), parser.description or "", parts)


def parts_of(name: str, action: argparse._SubParsersAction[argparse.ArgumentParser]) -> tuple[Form, ...]:
    """The commands of a command."""
    summaries = {each.dest: each.help or "" for each in action._choices_actions}  # pylint: disable=protected-access
    parts = ((summaries[kind], form_of(f"{name} {kind}", parser)) for kind, parser in action.choices.items())
    return tuple(replace(part, summary=summary) for summary, part in parts)


def word_of(action: argparse.Action) -> str:
    word = str(action.metavar or action.dest)
    if action.choices:
        word = "|".join(map(str, action.choices))
    return {"?": f"[{word}]", "*": f"[{word} ..]", "+": f"{word} .."}.get(str(action.nargs), word)


# Man pages.


def roff(text: str) -> str:
    """A text as roff takes it."""
    escaped = text.replace("\\", "\\e").replace("-", "\\-")
    return "\\&" + escaped if escaped[:1] in (".", "'") else escaped


def man_page(program: Program, version: str) -> str:
    """A program's page in roff, for `man -l`."""
    name = program.name.rsplit("/", 1)[-1]
    lines = [
        f'.TH {name.upper()} 1 "" "{roff(version)}" "The Y86-64 workbench"',
        ".SH NAME",
        f"{roff(name)} \\- {roff(program.summary)}",
        ".SH SYNOPSIS",
    ]
    for form in (part for form in program.forms for part in form.parts or (form,)):
        lines += [".nf", f"\\fB{roff(name)}\\fR {usage(form)}".rstrip(), ".fi"]
    lines.append(".SH COMMANDS" if len(program.forms) > 1 else ".SH DESCRIPTION")
    for form in (part for form in program.forms for part in (form, *form.parts)):
        lines += [".TP", f"\\fB{roff(form.name or name)}\\fR", roff(form.summary)]
    options = dict.fromkeys(option for form in program.forms for option in form.options)
    if options:
        lines.append(".SH OPTIONS")
    for option in options:
        lines += [".TP", f"\\fB{roff(option.name)}\\fR {roff(option.value)}".rstrip(), roff(option.summary)]
    if program.statuses:
        lines.append(".SH EXIT STATUS")
    for status, meaning in program.statuses:
        lines += [".TP", f"\\fB{status}\\fR", roff(meaning)]
    return "\n".join([*lines, ".SH SEE ALSO", roff(program.page), ""])


def usage(form: Form) -> str:
    written = {option: f"{option.name} {option.value}".rstrip() for option in form.options}
    options = [words if option.is_needed else f"[{words}]" for option, words in written.items()]
    return roff(" ".join(word for word in (form.name, form.words, *options) if word))


# Completions.

SUFFIXES = {"HCL": "hcl", "OBJ": "yo", "ASM": "ys", "NCOPY.ys": "ys", "CERT": "crt", "AAG": "aag", "DEFINITIONS": "hcl"}
ANY_FILE = {"FILE", "FOLDER", "PROGRAM"}
# Words that are their own choice.
FIXED = {"pipe"}


def suffixes(form: Form) -> list[str]:
    """The suffixes of the files that a command takes; `*` for any file."""
    takes = " ".join(part.words for part in (form, *form.parts))
    words = takes.replace("[", " ").replace("]", " ").split()
    known = dict.fromkeys(SUFFIXES[word] for word in words if word in SUFFIXES)
    return ["*"] if ANY_FILE & set(words) else list(known)


def choices(form: Form) -> list[str]:
    """The fixed words that a command takes."""
    words = form.words.replace("[", " ").replace("]", " ").split()
    return [choice for word in words if "|" in word or word in FIXED for choice in word.split("|")]


def bash_completion(programs: Sequence[Program]) -> str:
    """Completions for bash."""
    lines = ["# Completions of the Y86-64 workbench for bash: source this file.", "_y86_complete() {"]
    lines += [
        '    local program=${1##*/} word=${COMP_WORDS[COMP_CWORD]} choices="" options="" files=""',
        '    case "$program ${COMP_WORDS[1]}" in',
    ]
    for program in programs:
        name = program.name.rsplit("/", 1)[-1]
        for form in program.forms:
            pattern = f'"{name} {form.name}"' if form.name else f'"{name} "*'
            options = " ".join(option.name for option in form.options)
            wanted = "|".join(suffixes(form))
            lines.append(f"    {pattern}) choices='{' '.join(choices(form))}' options='{options}' files='{wanted}' ;;")
    lines += ["    esac", "    if [ $COMP_CWORD -eq 1 ]; then", '        case "$program" in']
    for program in programs:
        name, commands = program.name.rsplit("/", 1)[-1], [form.name for form in program.forms if form.name]
        if commands:
            lines.append(f"        {name}) choices='{' '.join(commands)}' options='' files='' ;;")
    lines += [
        "        esac",
        "    fi",
        '    COMPREPLY=($(compgen -W "$choices" -- "$word"))',
        '    case "$word" in -*) COMPREPLY+=($(compgen -W "$options" -- "$word")) ;; esac',
        "    local IFS=$'\\n'",
        '    if [ "$files" = "*" ]; then COMPREPLY+=($(compgen -f -- "$word"))',
        '    elif [ -n "$files" ]; then',
        '        COMPREPLY+=($(compgen -d -- "$word") $(compgen -f -- "$word" | grep -E "\\.($files)\\$"))',
        "    fi",
        "}",
        f"complete -o filenames -F _y86_complete {' '.join(command_names(programs))}",
        "",
    ]
    return "\n".join(lines)


def zsh_completion(programs: Sequence[Program]) -> str:
    """Completions for zsh."""
    names = " ".join(program.name.rsplit("/", 1)[-1] for program in programs)
    lines = [
        f"#compdef {names}",
        "# Completions of the Y86-64 workbench for zsh: put this file into a folder of $fpath as `_y86`.",
        "_y86_complete() {",
        "    local program=${words[1]:t}",
        "    local -a commands options choices",
        '    local files=""',
        '    case "$program ${words[2]}" in',
    ]
    for program in programs:
        name = program.name.rsplit("/", 1)[-1]
        for form in program.forms:
            pattern = f'"{name} {form.name}"' if form.name else f'"{name} "*'
            options = " ".join(quoted(f"{option.name}:{option.summary}") for option in form.options)
            wanted = "|".join(suffixes(form))
            lines.append(f"    {pattern}) choices=({' '.join(choices(form))}) options=({options}) files='{wanted}' ;;")
    lines += ["    esac", '    if (( CURRENT == 2 )); then', '        case "$program" in']
    for program in programs:
        name = program.name.rsplit("/", 1)[-1]
        commands = " ".join(quoted(f"{form.name}:{form.summary}") for form in program.forms if form.name)
        if commands:
            lines.append(f"        {name}) commands=({commands}) choices=() options=() files='' ;;")
    lines += [
        "        esac",
        "    fi",
        "    (( $#commands )) && _describe command commands",
        "    (( $#choices )) && compadd -- $choices",
        '    [[ ${words[CURRENT]} == -* ]] && _describe option options',
        '    if [[ $files == "*" ]]; then _files; elif [[ -n $files ]]; then _files -g "*.($files)"; fi',
        "}",
        f"compdef _y86_complete {' '.join(command_names(programs))}",
        "",
    ]
    return "\n".join(lines)


def quoted(text: str) -> str:
    return "'" + text.replace("'", "'\\''") + "'"


def command_names(programs: Sequence[Program]) -> list[str]:
    """The commands to complete, also as they are called from the folder of the workbench."""
    return [
        command
        for program in programs
        for command in dict.fromkeys((program.name.rsplit("/", 1)[-1], f"./{program.name}"))
    ]
