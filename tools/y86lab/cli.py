"""The command line of the lab: its words, and what ends it."""
from __future__ import annotations

import argparse
import difflib
import os
import sys
from typing import NoReturn, Optional, Sequence

from . import manual
from .arguments import Command
from .calls import Programs
from .commands import COMMANDS
from .errors import DONE, REFUSED, USAGE, LabError
from .version import version

DESCRIPTION = "For students and teachers of Y86-64: commands over the programs beside it."
INTERRUPTED = 130
UNWRITTEN = 4


class Formatter(argparse.RawDescriptionHelpFormatter):
    """Help of one width, whatever the terminal's is."""

    def __init__(self, prog: str) -> None:
        super().__init__(prog, max_help_position=24, width=100)


class Parser(argparse.ArgumentParser):
    """A parser that takes no part of an option's name for it, and suggests a command for a misspelt one."""

    def __init__(self, *arguments: object, **options: object) -> None:
        options.setdefault("allow_abbrev", False)
        options.setdefault("formatter_class", Formatter)
        super().__init__(*arguments, **options)  # type: ignore[arg-type]

    def error(self, message: str) -> NoReturn:
        if "invalid choice" in message and self.prog == "y86-lab":
            word = message.split("'")[1]
            close = difflib.get_close_matches(word, [command.name for command in all_commands()], 1)
            message = f"there is no command `{word}`" + (f"; did you mean `{close[0]}`?" if close else "")
        super().error(message)


def add_man_arguments(parser: argparse.ArgumentParser) -> None:
    parser.add_argument("program", metavar="PROGRAM", nargs="?", default="y86-lab", help="y86, y86-stages, y86-tell ..")


def run_man(arguments: argparse.Namespace, programs: Programs) -> int:
    pages = {program.name.rsplit("/", 1)[-1]: program for program in all_programs()}
    if arguments.program not in pages:
        raise LabError(f"there is a page of {', '.join(pages)}", USAGE)
    print(manual.man_page(pages[arguments.program], version(programs).partition("\n")[0]), end="")
    return DONE


def add_completion_arguments(parser: argparse.ArgumentParser) -> None:
    parser.add_argument("shell", choices=("bash", "zsh"), help="the shell")


def run_completion(arguments: argparse.Namespace, _programs: Programs) -> int:
    written = manual.bash_completion if arguments.shell == "bash" else manual.zsh_completion
    print(written(all_programs()), end="")
    return DONE


OWN_COMMANDS = (
    Command("man", "prints a man page of a program, for `man -l -`", add_man_arguments, run_man),
    Command("completion", "prints the completions for a shell", add_completion_arguments, run_completion),
)


def all_commands() -> tuple[Command, ...]:
    return (*COMMANDS, *OWN_COMMANDS)


def all_programs() -> list[manual.Program]:
    parser, commands = parsers(None)
    return [*manual.BESIDE, manual.program_of(parser, commands)]


def parsers(programs: Optional[Programs]) -> tuple[argparse.ArgumentParser, dict[str, argparse.ArgumentParser]]:
    """The parser of the lab, and those of its commands."""
    beside = [program for program in manual.BESIDE if programs is None or programs.is_there(program.name)]
    lists = ["commands:", *[f"  {each.name:<20}  {each.summary}" for each in all_commands()]]
    lists += ["", "y86-lab COMMAND --help says more.", "", "programs beside it:"]
    lists += [f"  {each.name:<20}  {each.summary} ({each.page})" for each in beside]
    parser = Parser(
        prog="y86-lab", usage="y86-lab COMMAND ..", description=DESCRIPTION, epilog="\n".join(lists)
    )
    parser.add_argument("--version", action="store_true", help="the commit, the toolchain, and what is proved")
    commands = parser.add_subparsers(
        dest="command", metavar="COMMAND", prog="y86-lab", parser_class=Parser, help=argparse.SUPPRESS
    )
    by_name: dict[str, argparse.ArgumentParser] = {}
    for command in all_commands():
        by_name[command.name] = commands.add_parser(command.name, description=command.summary)
        command.add_arguments(by_name[command.name])
    return parser, by_name


def run(words: Sequence[str], programs: Programs) -> int:
    """Runs the command that the words name."""
    parser, _ = parsers(programs)
    arguments = parser.parse_args(words)
    if arguments.version:
        print(version(programs))
        return DONE
    if arguments.command is None:
        parser.print_help()
        return USAGE
    command = next(command for command in all_commands() if command.name == arguments.command)
    return command.run(arguments, programs)


def main() -> int:
    """Runs the lab with the words of the process, and returns the exit status."""
    top = os.path.dirname(os.path.dirname(os.path.dirname(os.path.realpath(__file__))))
    # (a file may have a character that the locale lacks)
    if hasattr(sys.stdout, "reconfigure"):
        sys.stdout.reconfigure(errors="replace")
    try:
        status = run(sys.argv[1:], Programs(top, os.environ))
        sys.stdout.flush()
        return status
    except LabError as ended:
        return say(str(ended), ended.status)
    except RecursionError:
        return say("the definitions depend on each other too deeply for this command; ./y86 check can answer", REFUSED)
    except KeyboardInterrupt:
        return INTERRUPTED
    except BrokenPipeError:
        # (else Python reports at its end that it can't write)
        os.dup2(os.open(os.devnull, os.O_WRONLY), sys.stdout.fileno())
        return REFUSED
    except OSError as fault:
        return say(f"{fault.filename or 'standard output'}: {fault.strerror}", UNWRITTEN)


def say(message: str, status: int) -> int:
    """Prints a line on standard error, and returns the status."""
    sys.stdout.flush()
    print(message, file=sys.stderr)
    return status
