"""Completions for bash, zsh and fish: the commands and options of each program, and files as words that name a file."""
from collections.abc import Iterable, Iterator

from manual.help import HELP, Help, Row


def function_of(name: str) -> str:
    return "_" + name.replace("-", "_").replace(" ", "_")


def files_of(options: Iterable[Row]) -> list[str]:
    return [row.long for row in options if row.is_file]


# bash.


def bash(help: Help, others: list[Help]) -> str:
    """A function for bash-completion(7), which finds the script by the program's name."""
    lines = [f"# Completion of {help.name}, made from its help.", f"{function_of(help.name)}()", "{", "    local cur prev words cword",
             "    _init_completion || return"]
    if others:
        lines += ["    case ${words[1]} in"]
        for one in others:
            lines += [f"    {command_of(one)})", *(f"    {line}" for line in bash_options(one.options)), "        return", "        ;;"]
        lines += ["    esac", "    if ((cword == 1)); then",
                  f"        COMPREPLY=($(compgen -W \"{' '.join([*map(command_of, others), *longs(help.options)])}\" -- \"$cur\"))",
                  "    else", "        _filedir", "    fi"]
    else:
        lines += bash_options(help.options)
    lines += ["}", f"complete -F {function_of(help.name)} {help.name}"]
    return "\n".join(lines) + "\n"


def bash_options(options: list[Row]) -> Iterator[str]:
    yield "    case $prev in"
    if files := files_of(options):
        yield f"    {'|'.join(files)})"
        yield "        _filedir"
        yield "        return"
        yield "        ;;"
    for row in options:
        if row.choices:
            yield f"    {row.long})"
            yield f"        COMPREPLY=($(compgen -W \"{' '.join(row.choices)}\" -- \"$cur\"))"
            yield "        return"
            yield "        ;;"
    if others := [row.long for row in options if row.value and not row.is_file and not row.choices]:
        yield f"    {'|'.join(others)})"
        yield "        return"
        yield "        ;;"
    yield "    esac"
    yield "    if [[ $cur == -* ]]; then"
    yield f"        COMPREPLY=($(compgen -W \"{' '.join(longs(options))}\" -- \"$cur\"))"
    yield "    else"
    yield "        _filedir"
    yield "    fi"


# zsh.


def zsh(help: Help, others: list[Help]) -> str:
    """A function for compinit, which finds it by the first line."""
    lines = [f"#compdef {help.name}", f"# Completion of {help.name}, made from its help."]
    if not others:
        return "\n".join([*lines, *zsh_arguments(help.options)]) + "\n"
    lines += ["local line state", "_arguments -C '1: :->command' '*:: :->rest'", "case $state in", "command)", "    local -a commands=("]
    lines += [f"        {quoted(f'{command_of(one)}:{one.about}')}" for one in others]
    lines += ["    )", "    _describe command commands -- && return", f"    _arguments {' '.join(zsh_specs(help.options))}", "    ;;", "rest)", "    case $line[1] in"]
    for one in others:
        lines += [f"    {command_of(one)})", *(f"        {line}" for line in zsh_arguments(one.options)), "        ;;"]
    return "\n".join([*lines, "    esac", "    ;;", "esac"]) + "\n"


def zsh_arguments(options: list[Row]) -> Iterator[str]:
    yield "_arguments \\"
    for spec in zsh_specs(options):
        yield f"    {spec} \\"
    yield "    '*:file:_files'"


def zsh_specs(options: list[Row]) -> Iterator[str]:
    for row in options:
        about = row.text.replace("[", "(").replace("]", ")").replace(":", "\\:")
        value = ""
        if row.value:
            how = "_files" if row.is_file else f"({' '.join(row.choices)})" if row.choices else " "
            value = f":{row.value.replace(':', ' ')}:{how}"
        yield quoted(f"{row.long}[{about}]{value}")


# fish.


def fish(help: Help, others: list[Help]) -> str:
    lines = [f"# Completion of {help.name}, made from its help."]
    if others:
        known = " ".join(map(command_of, others))
        lines += [f"complete -c {help.name} -n 'not __fish_seen_subcommand_from {known}' -a {command_of(one)} -d {quoted(one.about)}" for one in others]
        lines += fish_options(help, f"not __fish_seen_subcommand_from {known}", help.options)
        for one in others:
            lines += fish_options(help, f"__fish_seen_subcommand_from {command_of(one)}", one.options)
    else:
        lines += fish_options(help, "", help.options)
    return "\n".join(lines) + "\n"


def fish_options(help: Help, when: str, options: list[Row]) -> Iterator[str]:
    for row in options:
        words = [f"complete -c {help.name}", *([f"-n {quoted(when)}"] if when else []), f"-l {row.long[2:]}"]
        if row.value:
            words.append("-r -F" if row.is_file else f"-x -a {quoted(' '.join(row.choices))}" if row.choices else "-x")
        yield " ".join([*words, f"-d {quoted(row.text)}"])


# All three.


def command_of(help: Help) -> str:
    """The last word of a command of a program, as `format` of `hpb format`."""
    return help.name.split(" ")[-1]


def longs(options: Iterable[Row]) -> list[str]:
    found = [row.long for row in options]
    return found if HELP in found else [*found, HELP]


def quoted(text: str) -> str:
    """A word of a shell."""
    return "'" + text.replace("'", "'\\''") + "'"
