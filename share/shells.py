"""How bash, zsh and fish complete a command line of the program with the files that share/make wrote."""
import os
import pty
import re
import select
import subprocess

# A shell that completes names of files is in a folder that has one file, with this name.
FILE = "rows.arrows"
BASH = f"""
source "$1"
compopt() {{ files={FILE}; }}
while IFS= read -r line; do
    read -ra COMP_WORDS <<< "$line"
    [[ $line != *' ' ]] || COMP_WORDS+=('')
    COMP_CWORD=$((${{#COMP_WORDS[@]}} - 1)) COMPREPLY=() files=
    _arrowflow
    echo "${{COMPREPLY[@]}} $files"
done
"""
# How many seconds zsh may print nothing.
PATIENCE = 120
# What zsh and fish print after the words of a line.
END = "- end"
# zsh prints each word that it may complete on a line of its own, after this.
MATCH = "may be "
ZSH = f"""
PS1= PS2=; unsetopt zle_bracketed_paste prompt_cr prompt_sp; unsetopt auto_list auto_menu beep; autoload -Uz compinit; compinit -u -D
completed() {{ zle complete-word; BUFFER=; print -r -- "{END}" }}
zle -N completed; bindkey '^I' completed
compadd() {{
    local -a found
    # with -O, -A or -D it completes nothing
    [[ "${{@[1,(i)(-|--)]}}" == *-(O|A|D)\\ * ]] || {{ builtin compadd -O found "$@"; print -rl -- "{MATCH}${{(@)^found}}" }}
    builtin compadd "$@"
}}
"""
FISH = "source {}; while read -l line; complete -C $line | string split -f1 \\t; echo {}; end"


def place(room, name):
    """An empty folder except for one file, and the environment with which a shell reads no user settings."""
    folder = f"{room}/in-{name}"
    os.makedirs(folder)
    open(f"{folder}/{FILE}", "wb").close()
    env = {**os.environ, "HOME": room, "ZDOTDIR": room, "XDG_CONFIG_HOME": room, "XDG_DATA_HOME": room, "TERM": "dumb"}
    return {"cwd": folder, "env": env}


def asked(room, name, words, lines):
    """What a shell prints after reading these lines."""
    text = "".join(f"{it}\n" for it in lines)
    return subprocess.run(words, input=text, capture_output=True, text=True, **place(room, name)).stdout


def bash(room, lines):
    # bash treats = as a word
    its = [it.replace("=", " = ") for it in lines]
    found = asked(room, "bash", ["bash", "--norc", "-c", BASH, "bash", f"{room}/bash-completion/completions/arrowflow"], its)
    return dict(zip(lines, (set(it.split()) for it in found.split("\n"))))


def fish(room, lines):
    found = asked(room, "fish", ["fish", "--no-config", "-c", FISH.format(f"{room}/fish/vendor_completions.d/arrowflow.fish", END)], lines)
    return {line: {word.rpartition("=")[2] for word in it.split()} for line, it in zip(lines, found.split(f"{END}\n"))}


def zsh(room, lines):
    """The same for zsh, which completes only at a terminal."""
    with open(f"{room}/setup", "w", encoding="utf-8") as it:
        it.write(f"{ZSH}source {room}/zsh/site-functions/_arrowflow\n")
    own, other = pty.openpty()
    how = {"stdin": other, "stdout": other, "stderr": other, "start_new_session": True, **place(room, "zsh")}
    ran = subprocess.Popen(["zsh", "-f", "-i"], **how)
    os.close(other)
    try:
        printed(own, f"source {room}/setup; print -r -- -' 'end\n")
        found = {it: printed(own, f"{it}\t") for it in lines}
        return {line: {word.rstrip("=") for word in re.findall(rf"{MATCH}(\S+)", it)} for line, it in found.items()}
    finally:
        ran.kill()
        ran.wait()
        os.close(own)


def printed(terminal, keys):
    """What zsh prints after these keys, until the end."""
    os.write(terminal, keys.encode())
    found = ""
    while not re.search(rf"{END}\r?\n", found):
        if not select.select([terminal], [], [], PATIENCE)[0]:
            raise SystemExit(f"zsh says no more after {keys!r}: {found!r}")
        found += os.read(terminal, 1 << 16).decode(errors="replace")
    return found


ALL = {"bash": bash, "zsh": zsh, "fish": fish}
