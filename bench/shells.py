"""What shells offer for the last word of lines."""
import os
import subprocess

from seat_checks import SECONDS
from terminal import Terminal

# (a line ends in a dot, so that its last word may be empty)
BASH = r"""
source "$1"
while IFS=' ' read -r -a COMP_WORDS; do
    COMP_CWORD=$((${#COMP_WORDS[@]} - 1))
    COMP_WORDS[COMP_CWORD]=${COMP_WORDS[COMP_CWORD]%.}
    _mpwb
    echo "${COMPREPLY[*]}"
done
"""
FISH = r"""
source $argv[1]
while read -l line
    echo (complete -C (string replace -r '\.$' '' -- $line) | string replace -r '\t.*' '')
end
"""

# what is offered stands behind its name in brackets
ZSH = """PS1='>'; fpath=({} $fpath); autoload -Uz compinit; compinit -u -D; zstyle ':completion:*' format '[%d]'; bindkey '^G' list-choices
echo rea''dy
"""


def asked(lines, *words):
    """What a shell writes for each line."""
    given = "".join(f"{line}.\n" for line in lines)
    written = subprocess.run(words, input=given, capture_output=True, text=True, timeout=SECONDS, check=True).stdout
    return [sorted(line.split()) for line in written.splitlines()]


def offered_by_bash(path, lines):
    return asked(lines, "bash", "-c", BASH, "bash", path)


def offered_by_fish(path, lines):
    return asked(lines, "fish", "-c", FISH, path)


def offered_by_zsh(path, lines):
    shell = Terminal("zsh", "-f", "-i", columns=200, rows=200, env={"PATH": os.environ["PATH"], "LC_ALL": "C.UTF-8"}, term="dumb")
    try:
        shell.type(ZSH.format(os.path.dirname(path)))
        shell.until("ready")
        shell.until(">")
        return [listed(shell, line) for line in lines]
    finally:
        shell.kill()


def listed(shell, line):
    """What zsh lists for a line, which it shows before and after the list. Files are listed without their folders."""
    shell.type(f"{line}\a")
    shell.until(line)
    lines = [told for told in shell.until(f">{line}").replace("\r", "").split("\n") if told.strip("\a") and not told.startswith("[")]
    shell.type("\x15")
    words = [word for told in lines for word in (told.split() if " -- " not in told else told.split()[:1])]
    folder = os.path.dirname(line.split(" ")[-1])
    return sorted(os.path.join(folder, word) for word in words)
