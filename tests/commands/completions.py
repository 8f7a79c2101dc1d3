"""The completions of the command line, in each shell that has them: they offer what the sources of the program have."""

import os
import re
import subprocess

import pytest

from pages import command_line, sources

ROOT = sources.ROOT

# The options beside the commands: of each command the first, and of the program all.
HELP, VERSION_OPTIONS = {"-h", "--help"}, set(command_line.VERSION_OPTION.split(", "))

# Functions in place of those of zsh, which print their arguments.
OF_ZSH = """
compdef() { :; }
_arguments() { if [[ $1 == -C ]]; then state=$wanted; fi; if [[ $1 != -C || $wanted == options ]]; then print -rl -- "$@"; fi; }
_describe() { print -rl -- "${(@P)@[-1]}"; }
"""


def run(words, folder=None, **settings):
    """Returns the status of a command, and what it prints. Its settings are added to those of this process."""
    done = subprocess.run(
        words, cwd=folder, capture_output=True, text=True, env={**os.environ, **settings}, stdin=subprocess.DEVNULL, check=False
    )
    return done.returncode, done.stdout, done.stderr


def known_commands():
    """The commands of the program, each with its options and the number of its files, as its help says."""
    known = {}
    for form in command_line.forms():
        command, *words = form.split()
        options, files = known.get(command, (set(), 0))
        files += sum(word.isupper() and not before.startswith("--") for before, word in zip([command, *words], words))
        known[command] = (options | {word for word in words if word.startswith("--")}, files)
    return known


def by_bash(path, words):
    """What bash offers for the last of the words, and whether it offers files."""
    text = 'source "$1"; shift; compopt() { files=yes; }; COMP_WORDS=("$@"); COMP_CWORD=$(($# - 1)); _rbac'
    _, said, err = run(["bash", "-c", f'{text}; printf "%s\\n" "${{COMPREPLY[@]}}"; echo "$files"', "bash", path, *words])
    *offered, files = said.splitlines() or [""]
    if err:
        raise ValueError(err)
    return set(offered) - {""}, bool(files)


def by_fish(path, line, folder):
    """What fish offers at the end of a line, with its descriptions."""
    words = ["fish", "--no-config", "-c", f"source {path}; complete -C '{line}'"]
    _, said, err = run(words, folder, HOME=str(folder), XDG_CONFIG_HOME=str(folder), XDG_DATA_HOME=str(folder))
    if err:
        raise ValueError(err)
    return {line.partition("\t")[0]: line.partition("\t")[2] for line in said.splitlines()}


def by_zsh(path, state, words):
    """Returns what the completion offers to zsh for the words after the program. `state` is what zsh is about to complete."""
    text = f"{OF_ZSH}\nwanted={state}; words=({' '.join(words)}); source {path}; _rbac"
    _, said, err = run(["zsh", "-f", "-c", text])
    if err:
        raise ValueError(err)
    return said.splitlines()


def check_bash(bench):
    """bash offers the commands, the options of each and files for its files, and nothing for a number."""
    path, known = ROOT / "deploy/completions/rbac.bash", known_commands()
    bench.same("the commands by bash", by_bash(path, ["rbac", ""]), ({*known, "help"} | HELP | VERSION_OPTIONS, False))
    bench.same("the commands after help by bash", by_bash(path, ["rbac", "help", ""]), ({*known, "help"}, False))
    for command, (options, files) in known.items():
        wanted = ({*options, "--help"}, False)
        bench.same(f"the options of {command} by bash", by_bash(path, ["rbac", command, "--"]), wanted)
        bench.same(f"the files of {command} by bash", by_bash(path, ["rbac", command, ""]), (set(), files > 0))
    for option in command_line.ranges():
        for words in ([f"--{option}", ""], [f"--{option}", "=", "8"]):
            bench.same(f"what bash offers for {words}", by_bash(path, ["rbac", "serve", *words]), (set(), False))


@pytest.mark.needs("zsh")
def check_zsh(bench):
    """zsh gets the commands, the options of each, and as many files as it has."""
    path, known = ROOT / "deploy/completions/_rbac", known_commands()
    *listed, last = by_zsh(path, "command", [])
    bench.same("the commands by zsh", listed, [f"{name}:{use}" for name, use in command_line.commands().items()])
    bench.same("the last command by zsh", last.partition(":")[0], "help")
    listed = re.findall(r"^(?:\(.*?\))?(-[\w-]+)\[", "\n".join(by_zsh(path, "options", [])), re.M)
    bench.same("the options by zsh", set(listed), HELP | VERSION_OPTIONS)
    bench.same("the commands after help by zsh", by_zsh(path, "argument", ["help"]), by_zsh(path, "command", []))
    for command, (options, files) in known.items():
        listed = by_zsh(path, "argument", [command])
        offered = {option for line in listed for option in re.findall(r"^(?:\(.*?\))?(--\w+)", line)}
        bench.same(f"the options of {command} by zsh", offered, {*options, "--help"})
        bench.same(f"the files of {command} by zsh", sum(line.endswith(":_files") for line in listed), files)


@pytest.mark.needs("fish")
def check_fish(bench):
    """fish offers the commands, the options of each and files for its files, and describes the commands as zsh does."""
    path, known = ROOT / "deploy/completions/rbac.fish", known_commands()
    folder = bench.folder / "fish"
    folder.mkdir()
    (folder / "office").touch()
    commands = by_fish(path, "rbac ", folder)
    bench.same("the commands by fish", set(commands), {*known, "help"})
    bench.same("the commands after help by fish", set(by_fish(path, "rbac help ", folder)), {*known, "help"})
    uses = command_line.commands()
    bench.same("the descriptions of the commands by fish", {**commands, **uses}, commands)
    bench.same("the options by fish", set(by_fish(path, "rbac --", folder)), {"--help", "--version"})
    for command, (options, files) in known.items():
        bench.same(f"the options of {command} by fish", set(by_fish(path, f"rbac {command} --", folder)), {*options, "--help"})
        offered = set(by_fish(path, f"rbac {command} o", folder))
        bench.same(f"the files of {command} by fish", offered, {"office"} if files else set())
    for option in command_line.ranges():
        bench.same(f"what fish offers for {option}", by_fish(path, f"rbac serve --{option} ", folder), {})


@pytest.mark.needs("zsh", "fish")
def check_descriptions(bench):
    """zsh and fish describe the commands in the same words."""
    folder = bench.folder / "fish"
    folder.mkdir()
    of_zsh = by_zsh(ROOT / "deploy/completions/_rbac", "command", [])
    of_fish = by_fish(ROOT / "deploy/completions/rbac.fish", "rbac ", folder)
    bench.same("the descriptions of the commands", of_fish, dict(line.split(":", 1) for line in of_zsh))
