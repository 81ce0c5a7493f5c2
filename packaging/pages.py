"""The man pages and the completions of the programs, made of the tables of words."""

import time

from words import PROGRAMS, TABLES, VERSION, WORDS, asked, limits_of, words_of


def roff(text):
    """A text as troff reads it: no sign of it is a command."""
    text = text.replace("\\", "\\e").replace("-", "\\-").replace("'", "\\(aq")
    return "\\&" + text if text[:1] in (".", "'") else text


def bold(text):
    return f"\\fB{roff(text)}\\fR"


def italic(text):
    return f"\\fI{roff(text)}\\fR"


def synopsis(program, command):
    flags = [f"[{bold('--' + it.name)}]" for it in command.flags]
    options = [f"[{bold('--' + it.name)} {italic('N')}]" for it in command.options]
    name = " ".join(filter(None, (program.name, command.name)))
    return " ".join([bold(name), *flags, *map(italic, command.words), *options])


def entry(head, text):
    return [".TP", head, roff(text)]


def option_entry(option):
    span = f"N is {option.least} to {option.most}, and {option.default} where none is given."
    return entry(f"{bold('--' + option.name)} {italic('N')}", f"{option.meaning} {span}")


def command_lines(program):
    """The commands with their options, or the options alone where the program has one form."""
    lines = [".SH COMMANDS" if program.commands[0].name else ".SH OPTIONS"]
    for command in program.commands:
        if command.name:
            lines += [".SS " + synopsis(program, command), roff(command.text)]
        for flag in command.flags:
            lines += entry(bold("--" + flag.name), flag.meaning)
        for option in command.options:
            lines += option_entry(option)
    return lines


def status_lines(program, status):
    lines = entry(bold(str(status.number)), status.text)
    here = [it.name for it in program.commands]
    texts = {}
    for name, text in status.commands:
        if name in here:
            texts.setdefault(text, []).append(name)
    for text, names in texts.items():
        lines += [".br", f"{', '.join(map(bold, names))}: {roff(text)}"]
    return lines


def description(program):
    lines = [".SH DESCRIPTION"]
    for i, text in enumerate(program.text):
        lines += [".PP"] * (i > 0) + [roff(text)]
    return lines


def see_also(program):
    others = [f"{bold(it)}(1)" for it in PROGRAMS if it != program.name]
    texts = roff("README.md and docs/FORMATS.md of the package: the files, the texts, the claims.")
    return [".SH SEE ALSO", ", ".join(others), ".PP", texts]


def man_page(program, when):
    """The man page of a program in section 1, dated by seconds since 1970."""
    date = time.strftime("%Y-%m-%d", time.gmtime(when))
    lines = [f'.TH {program.name.upper()} 1 "{date}" "hoist {VERSION}" "User Commands"', ".SH NAME"]
    lines += [roff(program.name) + " \\- " + roff(program.brief), ".SH SYNOPSIS"]
    for command in program.commands:
        lines += [synopsis(program, command), ".br"]
    lines += description(program) + command_lines(program)
    lines += [".SH WORDS"]
    for word in words_of(program.commands):
        lines += entry(italic(word), WORDS[word][1])
    lines += [".SH EXIT STATUS"]
    for status in program.statuses:
        lines += status_lines(program, status)
    lines += [".SH LIMITS", roff("Of the files, and of the keys of a line file:")]
    for what, limit in limits_of(program.commands):
        lines += entry(bold(what), limit)
    lines += [".SH ENVIRONMENT"] if program.environment else []
    for name, text in program.environment:
        lines += entry(bold(name), text)
    lines += [".SH EXAMPLES"]
    for example, text in program.examples:
        lines += entry(bold(example), text)
    return "\n".join(lines + see_also(program)) + "\n"


def takes_files(command):
    return any(WORDS[it][0] for it in command.words)


def options_of(command):
    return " ".join(f"--{it.name}" for it in (*command.flags, *command.options))


# A part of a completion for bash.
NUMBER_BEHIND = """    # A number stands behind an option.
    [[ $before == --* || $before == = || $word == = ]] && return
"""


def bash_of_commands(program):
    """The part of a completion that goes by the command, which is the first word."""
    names = " ".join(it.name for it in program.commands)
    rows = [f"        {it.name}) options='{options_of(it)}' ;;" for it in program.commands]
    files = "|".join(it.name for it in program.commands if takes_files(it))
    return f"""    if ((COMP_CWORD == 1)); then
        mapfile -t COMPREPLY < <(compgen -W '{names}' -- "$word")
        return
    fi
{NUMBER_BEHIND}    case ${{COMP_WORDS[1]}} in
{chr(10).join(rows)}
        *) return ;;
    esac
    if [[ $word == -* ]]; then
        mapfile -t COMPREPLY < <(compgen -W "$options" -- "$word")
        return
    fi
    case ${{COMP_WORDS[1]}} in
        {files}) mapfile -t COMPREPLY < <(compgen -f -- "$word") ;;
    esac"""


def bash_of_one_form(command):
    """The part of a completion of a program with one form, which takes files."""
    return f"""{NUMBER_BEHIND if command.options else ""}    if [[ $word == -* ]]; then
        mapfile -t COMPREPLY < <(compgen -W '{options_of(command)}' -- "$word")
        return
    fi
    mapfile -t COMPREPLY < <(compgen -f -- "$word")"""


def bash(program):
    body = bash_of_commands(program) if program.commands[0].name else bash_of_one_form(program.commands[0])
    before = " before=${COMP_WORDS[COMP_CWORD - 1]}" if any(it.options for it in program.commands) else ""
    options = " options=" if program.commands[0].name else ""
    return f"""# Completion of {program.name} for bash.
_{program.name}() {{
    local word=${{COMP_WORDS[COMP_CWORD]}}{before}{options}
    COMPREPLY=()
{body}
}}
complete -o filenames -F _{program.name} {program.name}
"""


def quoted(text):
    """A text between single quotes, for zsh and fish alike, which read no quote inside."""
    return "'" + text.replace("'", "’") + "'"


def zsh_arguments(command):
    """What zsh's _arguments is told of the words and options of a command."""
    action = {word: "_files" if WORDS[word][0] else " " for word in command.words}
    specs = [f"{i + 1}:{word}:{action[word]}" for i, word in enumerate(command.words)]
    specs += [f"--{it.name}[{it.meaning}]" for it in command.flags]
    specs += [f"--{it.name}=[{it.least} to {it.most}]:N: " for it in command.options]
    return f"_arguments {' '.join(map(quoted, specs))}"


def zsh_of_commands(program):
    names = [f"        {quoted(it.name + ':' + it.brief)}" for it in program.commands]
    rows = [f"        {it.name}) {zsh_arguments(it)} ;;" for it in program.commands]
    return f"""    local -a commands
    commands=(
{chr(10).join(names)}
    )
    if ((CURRENT == 2)); then
        _describe command commands
        return
    fi
    shift words
    ((CURRENT--))
    case $words[1] in
{chr(10).join(rows)}
    esac"""


def zsh(program):
    one = "    " + zsh_arguments(program.commands[0])
    return f"""#compdef {program.name}
# Completion of {program.name} for zsh.
_{program.name}() {{
{zsh_of_commands(program) if program.commands[0].name else one}
}}
_{program.name} "$@"
"""


def fish(program):
    here = f"complete -c {program.name}"
    lines = [f"# Completion of {program.name} for fish."]
    if program.commands[0].name:
        lines.append(f"{here} -f")
    for command in program.commands:
        seen = here
        if command.name:
            lines.append(f"{here} -n __fish_use_subcommand -a {command.name} -d {quoted(command.brief)}")
            seen = f"{here} -n '__fish_seen_subcommand_from {command.name}'"
        if takes_files(command):
            lines.append(f"{seen} -F")
        for it in command.flags:
            lines.append(f"{seen} -l {it.name} -d {quoted(it.meaning)}")
        for it in command.options:
            lines.append(f"{seen} -l {it.name} -x -d {quoted(f'{it.least} to {it.most}')}")
    return "\n".join(lines) + "\n"


def pages(when):
    """Each page of each program under its place in a package."""
    found = {}
    for program in map(TABLES.get, PROGRAMS):
        found[f"share/man/man1/{program.name}.1"] = man_page(program, when)
        found[f"share/bash-completion/completions/{program.name}"] = bash(program)
        found[f"share/zsh/site-functions/_{program.name}"] = zsh(program)
        found[f"share/fish/vendor_completions.d/{program.name}.fish"] = fish(program)
    return found
