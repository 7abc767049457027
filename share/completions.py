"""The completion of command lines of the program in bash, zsh and fish: commands, the options of each, their values, and files."""
import table

NOTE = f"Made by share/make of {table.PAGES}."
BASH = """# {note}
_arrowflow() {{
    local word=${{COMP_WORDS[COMP_CWORD]}} before=${{COMP_WORDS[COMP_CWORD - 1]}} command="" options="" values="" at
    # of --types=all bash makes three words
    if [ "$word" = = ]; then
        word=""
    elif [ "$before" = = ]; then
        before=${{COMP_WORDS[COMP_CWORD - 2]}}
    fi
    for ((at = 1; at < COMP_CWORD; at++)); do
        case ${{COMP_WORDS[at]}} in
            {bar}) command=${{COMP_WORDS[at]}}; break ;;
        esac
    done
    case $command in
        "") options="{program}" values="{commands}" ;;
        help) values="{commands}" ;;
{of_commands}
    esac
    case $before in
{of_options}
        *)
            if [[ $word == -* ]]; then
                values=$options
            elif [ -n "$command" ] && [ "$command" != help ]; then
                # readline's own completion of names of files
                compopt -o default
            fi ;;
    esac
    mapfile -t COMPREPLY < <(compgen -W "$values" -- "$word")
}}
complete -F _arrowflow arrowflow
"""
ZSH = """#compdef arrowflow
# {note}
_arrowflow() {{
    local context state state_descr line
    typeset -A opt_args
    _arguments -C \\
{program}
        '1:command:->command' \\
        '*::argument:->argument' && return
    case $state in
        command)
            local -a commands=(
{commands}
            )
            _describe command commands ;;
        argument)
            case $line[1] in
{of_commands}
            esac ;;
    esac
}}
if [ "$funcstack[1]" = _arrowflow ]; then
    _arrowflow "$@"
else
    compdef _arrowflow arrowflow
fi
"""


def quoted(text):
    """A text as one word of a shell."""
    return "'" + text.replace("'", "'\\''") + "'"


# ---- bash


def bash(its_table):
    names = [name for name, _ in its_table.listed]
    of_commands = [f'        {it.name}) options="{words(it)}" ;;' for it in its_table.commands]
    of_options = [f'        {" | ".join(its)}) values="{" ".join(values)}" ;;' for values, its in by_values(its_table).items()]
    return BASH.format(note=NOTE, bar=" | ".join(names), program=words(its_table.program), commands=" ".join(names),
        of_commands="\n".join(of_commands), of_options="\n".join(of_options))


def words(command):
    return " ".join(it for option in command.options for it in option.words)


def by_values(its_table):
    """The options that a value follows, by their values, which must be the same in each command."""
    values, found = {}, {}
    for option in (option for it in its_table.commands for option in it.options if option.value):
        for word in option.words:
            if values.setdefault(word, option.values) != option.values:
                raise SystemExit(f"{table.PAGES}: {word} has other values in another command, which bash is not told")
    for word, its in values.items():
        found.setdefault(its, []).append(word)
    return found


# ---- zsh


def zsh_option(option):
    """An option as _arguments reads it: it excludes itself, and a value follows."""
    text = option.text
    for it in "\\[]:":
        text = text.replace(it, f"\\{it}")
    value = ""
    if option.value:
        value = f":{option.value}:" + (f"({' '.join(option.values)})" if option.values else " ")
    both = " ".join(option.words)
    names = f"{{{','.join(option.words)}}}" if option.letter else f"--{option.name}"
    is_last = option.name in ("help", "version")
    if value:
        names = names.replace(f"--{option.name}", f"--{option.name}=").replace(f"-{option.letter},", f"-{option.letter}+,")
    return f"'({'- *' if is_last else both})'{names}" + quoted(f"[{text}]{value}")


def zsh_arguments(command):
    """The words for _arguments that describe the arguments of a command other than options."""
    for at, it in enumerate(command.arguments, 1):
        yield f"'{'*' if it.is_many else at}{'' if it.is_needed or it.is_many else ':'}:{it.name}:_files'"


def zsh(its_table):
    of_commands = []
    for it in its_table.commands:
        its = [*map(zsh_option, it.options), *zsh_arguments(it)]
        lines = " \\\n".join(f"                        {word}" for word in its)
        of_commands.append(f"                {it.name})\n                    _arguments -s \\\n{lines} ;;")
    names = " ".join(it.name for it in its_table.commands)
    of_commands.append(f"                help)\n                    _arguments '1:command:({names} help)' ;;")
    program = "\n".join(f"        {zsh_option(it)} \\" for it in its_table.program.options)
    commands = "\n".join(f"                {quoted(f'{name}:{about}')}" for name, about in its_table.listed)
    return ZSH.format(note=NOTE, program=program, commands=commands, of_commands="\n".join(of_commands))


# ---- fish


def fish_option(condition, option):
    letter, values = f" -s {option.letter}" if option.letter else "", f" -a {quoted(' '.join(option.values))}" if option.values else ""
    value = f" -x{values}" if option.value else ""
    return f"complete -c arrowflow -n {quoted(condition)}{letter} -l {option.name}{value} -d {quoted(option.text)}"


def fish(its_table):
    names = " ".join(name for name, _ in its_table.listed)
    none = f"not __fish_seen_subcommand_from {names}"
    lines = [f"# {NOTE}", f"complete -c arrowflow -n {quoted(none)} -f"]
    lines += [f"complete -c arrowflow -n {quoted(none)} -a {name} -d {quoted(about)}" for name, about in its_table.listed]
    lines += [fish_option(none, it) for it in its_table.program.options]
    for it in its_table.commands:
        lines += [fish_option(f"__fish_seen_subcommand_from {it.name}", option) for option in it.options]
    lines.append(f"complete -c arrowflow -n '__fish_seen_subcommand_from help' -f -a {quoted(names)}")
    return "".join(f"{it}\n" for it in lines)


def files(its_table):
    """The files by their paths."""
    return {
        "bash-completion/completions/arrowflow": bash(its_table),
        "zsh/site-functions/_arrowflow": zsh(its_table),
        "fish/vendor_completions.d/arrowflow.fish": fish(its_table),
    }
