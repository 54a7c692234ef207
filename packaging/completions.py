"""Completions for bash, zsh and fish, of the words that the programs tell."""


def bash(program):
    """Returns a function for bash that completes commands, options, the values of options, and files."""
    lines = [f"# completions of {program.name} for bash, made of its help", f"_{program.name}()", "{"]
    lines += ["    local word=${COMP_WORDS[COMP_CWORD]} before=${COMP_WORDS[COMP_CWORD - 1]} words=''", "    COMPREPLY=()"]
    names = " ".join([it.name for it in program.commands] + ["help"] + [it.long for it in program.options])
    lines += ["    if [ \"$COMP_CWORD\" -eq 1 ]; then", f"        words='{names}'", "    else", "        case ${COMP_WORDS[1]},$before in"]
    for command in program.commands:
        for it in command.options:
            if it.value:
                lines.append(f"        {command.name},{it.long}) words='{' '.join(it.values)}'; [ \"$words\" ] || return ;;")
    lines += ["        esac", "        if [ -z \"$words\" ]; then", "            case ${COMP_WORDS[1]} in"]
    for command in program.commands:
        lines.append(f"            {command.name}) words='{' '.join(it.long for it in command.options)}' ;;")
    lines += [f"            help) words='{' '.join(it.name for it in program.commands)}' ;;", "            esac"]
    lines += ["            case ${COMP_WORDS[1]},$word in", "            help,* | *,-*) ;;", "            *) words='' ;;", "            esac", "        fi", "    fi"]
    lines += ["    if [ \"$words\" ]; then", "        mapfile -t COMPREPLY < <(compgen -W \"$words\" -- \"$word\")"]
    lines += ["    else", "        compopt -o filenames 2>/dev/null", "        mapfile -t COMPREPLY < <(compgen -f -- \"$word\")", "    fi", "}"]
    return "\n".join([*lines, f"complete -F _{program.name} {program.name}"]) + "\n"


def for_zsh(text):
    return text.replace("'", "'\\''").replace("[", "\\[").replace("]", "\\]").replace(":", "\\:")


def zsh_option(it):
    names = f"'({it.short} {it.long})'{{{it.short},{it.long}}}" if it.short else it.long
    after = f":{it.value}:({' '.join(it.values)})" if it.values else f":{it.value}:" if it.value else ""
    return f"{names}'[{for_zsh(it.help)}]{after}'"


def zsh(program):
    """Returns a function for zsh, which shows what each word is for."""
    lines = [f"#compdef {program.name}", f"# completions of {program.name} for zsh, made of its help", f"_{program.name}() {{"]
    lines += ["    local -a commands=("] + [f"        '{it.name}:{for_zsh(it.about)}'" for it in program.commands] + ["    )"]
    general = " ".join(zsh_option(it) for it in program.options)
    lines += ["    if (( CURRENT == 2 )); then", f"        _arguments {general} '1:command:(({' '.join(it.name for it in program.commands)} help))'"]
    lines += ["        _describe command commands", "        return", "    fi", "    shift words", "    (( CURRENT-- ))", "    case ${words[1]} in"]
    for command in program.commands:
        options = [zsh_option(it) for it in command.options]
        files = [f"'{'*' if it.is_repeated else '' if it.is_required else ':'}:{for_zsh(it.name)}:{'_files' if it.is_file else ' '}'" for it in command.arguments]
        lines.append(f"    {command.name}) _arguments {' '.join([*options, *files])} ;;")
    lines += ["    help) _describe command commands ;;", "    esac", "}", f"_{program.name} \"$@\""]
    return "\n".join(lines) + "\n"


def for_fish(text):
    return text.replace("\\", "\\\\").replace("'", "\\'")


def fish_option(program, it, condition):
    words = ["complete", "-c", program.name, "-n", f"'{condition}'", "-l", it.long[2:]]
    words += ["-s", it.short[1:]] if it.short else []
    words += ["-x"] if it.value else []
    words += ["-a", f"'{' '.join(it.values)}'"] if it.values else []
    return " ".join([*words, "-d", f"'{for_fish(it.help)}'"])


def fish(program):
    """Returns lines for fish."""
    first = "__fish_use_subcommand"
    lines = [f"# completions of {program.name} for fish, made of its help"]
    for it in program.commands:
        lines.append(f"complete -c {program.name} -n {first} -f -a {it.name} -d '{for_fish(it.about)}'")
    lines += [fish_option(program, it, first) for it in program.options]
    for command in program.commands:
        lines += [fish_option(program, it, f"__fish_seen_subcommand_from {command.name}") for it in command.options]
    return "\n".join(lines) + "\n"
