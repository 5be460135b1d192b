"""The completions of bash, zsh and fish, made from the help of the commands."""
import re

HEAD = "Made by tools/man-page from the help of the commands. Change that, not this file."
# The values that are names of files, and that is the name of a network device.
FILES = ("CONFIG", "LOG", "SCENARIO", "TOPOLOGY", "FILE", "PLACE")
DEVICE = "DEVICE"
# The arguments whose help lists their words, as `a, b or c`.
LISTED = ("QUESTION", "SHAPE")


def kind_of(value):
    """What a value is: files, device, words, or other."""
    name = value.removesuffix("...")
    if name in FILES:
        return "files"
    if name in LISTED:
        return "listed"
    return {DEVICE: "device", "WORD": "words"}.get(name, "other")


def listed_words(item):
    """The words that the help of an argument lists."""
    return re.findall(r"\w+", re.sub(r" or ", ", ", item.help))


def bash_values(kind, words):
    return {
        # Without a reply bash completes names of files, unless that is turned off.
        "files": "COMPREPLY=()",
        "device": 'COMPREPLY=($(compgen -W "$(ls /sys/class/net)" -- "$word"))',
        "words": f'COMPREPLY=($(compgen -W "{" ".join(words)}" -- "$word"))',
        "other": "compopt +o default 2>/dev/null",
    }[kind]


def bash(top, commands, words):
    lines = [
        f"# {HEAD}",
        "_babel() {",
        "    local word=${COMP_WORDS[COMP_CWORD]} last=${COMP_WORDS[COMP_CWORD-1]}",
        "    COMPREPLY=()",
        "    if [ \"$COMP_CWORD\" -eq 1 ]; then",
        f'        COMPREPLY=($(compgen -W '
        f'"{" ".join([*(c.name for c in commands), *(n for o in top.options for n in o.names)])}" '
        f'-- "$word"))',
        "        return",
        "    fi",
        '    case "${COMP_WORDS[1]}" in',
    ]
    for command in commands:
        lines += [f"    {command.name})", '        case "$last" in']
        for option in command.options:
            if option.value:
                lines.append(
                    f"        {'|'.join(option.names)})"
                    f" {bash_values(kind_of(option.value), words)}; return ;;"
                )
        names = " ".join(name for option in command.options for name in option.names)
        lines += ["        esac",
                  f'        if [[ $word == -* ]]; then COMPREPLY=($(compgen -W "{names}" -- '
                  f'"$word")); return; fi']
        kinds = {kind_of(item.value) for item in command.arguments}
        kind = "files" if "files" in kinds else "device" if "device" in kinds else "other"
        for item in command.arguments:
            if kind_of(item.value) == "listed":
                # One of them that is there already is not completed again.
                listed = "|".join(f'*" {one} "*' for one in listed_words(item))
                lines.append(
                    f'        case " ${{COMP_WORDS[*]:2:COMP_CWORD-2}} " in {listed}) ;; *)'
                    f" {bash_values('words', listed_words(item))}; return ;; esac"
                )
        lines += [f"        {bash_values(kind, words)}", "        ;;"]
    return "\n".join([*lines, "    esac", "}", "complete -o default -F _babel babel"]) + "\n"


def zsh_text(text):
    for mark in "\\[]:'":
        text = text.replace(mark, {"'": "'\\''"}.get(mark, "\\" + mark))
    return text


def zsh_values(value, words):
    return {
        "files": ":_files",
        "device": ":_net_interfaces",
        "words": f":({' '.join(words)})",
        "other": ":",
    }[kind_of(value)]


def zsh(top, commands, words):
    lines = ["#compdef babel", f"# {HEAD}", "_babel() {", "    local context state line",
             "    typeset -A opt_args", "    local -a commands", "    commands=("]
    lines += [f"        '{command.name}:{zsh_text(command.about)}'" for command in commands]
    lines += ["    )",
              "    _arguments -C '(-)'{-h,--help}'[Print help]' '(-)'{-V,--version}'[Print "
              "version]' '1:command:->command' '*::argument:->argument'", "    case $state in",
              "    command) _describe command commands ;;", "    argument)",
              "        case $words[1] in"]
    for command in commands:
        lines.append(f"        {command.name})")
        parts = []
        for option in command.options:
            for name in option.names:
                tail = f":{option.value}{zsh_values(option.value, words)}" if option.value else ""
                parts.append(f"'{name}[{zsh_text(option.help)}]{tail}'")
        for number, item in enumerate(command.arguments, 1):
            place = "*" if item.is_repeated else str(number)
            values = (
                f":({' '.join(listed_words(item))})"
                if kind_of(item.value) == "listed"
                else zsh_values(item.value, words)
            )
            parts.append(f"'{place}:{item.value.removesuffix('...')}{values}'")
        lines += ["            _arguments \\",
                  *(f"                {part} \\" for part in parts[:-1]),
                  f"                {parts[-1]}", "            ;;"]
    return "\n".join([*lines, "        esac", "        ;;", "    esac", "}", '_babel "$@"']) + "\n"


def fish_text(text):
    return "'" + text.replace("\\", "\\\\").replace("'", "\\'") + "'"


def fish(top, commands, words):
    lines = [f"# {HEAD}", "complete -c babel -f"]
    for option in top.options:
        lines.append(
            f"complete -c babel -n __fish_use_subcommand {fish_names(option)} -d"
            f" {fish_text(option.help)}"
        )
    for command in commands:
        lines.append(
            f"complete -c babel -n __fish_use_subcommand -a {command.name} -d"
            f" {fish_text(command.about)}"
        )
        seen = f"-n '__fish_seen_subcommand_from {command.name}'"
        for option in command.options:
            tail = ""
            if option.value:
                tail = {"files": " -r -F", "device": " -x -a '(ls /sys/class/net)'",
                        "words": f" -x -a '{' '.join(words)}'",
                        "other": " -x"}[kind_of(option.value)]
            lines.append(
                f"complete -c babel {seen} {fish_names(option)}{tail} -d {fish_text(option.help)}"
            )
        kinds = {kind_of(item.value) for item in command.arguments}
        if "files" in kinds:
            lines.append(f"complete -c babel {seen} -F")
        elif "device" in kinds:
            lines.append(f"complete -c babel {seen} -a '(ls /sys/class/net)'")
        for item in command.arguments:
            if kind_of(item.value) == "listed":
                listed = " ".join(listed_words(item))
                lines.append(
                    f"complete -c babel -n '__fish_seen_subcommand_from {command.name}; and not"
                    f" __fish_seen_subcommand_from {listed}' -a '{listed}'"
                )
    return "\n".join(lines) + "\n"


def fish_names(option):
    return " ".join(
        f"-l {name[2:]}" if name.startswith("--") else f"-s {name[1:]}" for name in option.names
    )
