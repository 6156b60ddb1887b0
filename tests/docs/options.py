#!/usr/bin/env python3
"""The options of the programs, from the usage texts in the sources: completions for shells, and what the man pages must name.

usage: tests/docs.py options --write | --check
  --write  writes completions/omf.bash, completions/_omf (zsh) and completions/omf.fish
  --check  compares these with the sources, completes some lines in bash, and compares the tasks and options that the SYNOPSIS of each page in man/
           has; a page also names each option in its text, and no other: status 1 where one fails"""
import re
import subprocess
import sys

from tree import ROOT, code_files, crates

FOLDER = ROOT / "completions"
ABOUT = "made by tests/docs.py options from the usage texts of the programs"
QUESTIONS = [("--help", "", "how to call it"), ("--version", "", "the version")]
# The options of each program that may be given several times, with other values: the usage shows `[--option WORD ..]`.
REPEATED = set()
TRIES = {"omf-link exe --ord": "--order", "omf-link exe --allow tw": "twice", "omf-lib ch": "check", "omf-find --symbols gh": "ghidra", "omf re": "reloc"}


def texts():
    """The usage of each program, with what explains it: the longest that the sources have."""
    found = {}
    for name in crates():
        if name.endswith("_tests"):
            continue
        for path in code_files(name):
            for text in re.findall(r'"(usage: omf(?:-\w+)? .*?)"(?:,\s*details: "(.*?)",?\s*\})?', path.read_text(encoding="utf-8"), re.S):
                whole = (text[0] + text[1]).replace("\\n", "\n").replace("\\\\", "\\")
                program = whole.split()[1]
                found[program] = max(found.get(program, ""), whole, key=len)
    return found


def meaning(text, option):
    """What a usage says of an option, up to its first semicolon or full clause, without the tasks that have it."""
    line = re.search(rf"^  (?:-\S+ \S+, )?{re.escape(option)}(?: [^ \n]+)*?(?:\s{{2,}}|, --)(.*(?:\n {{8,}}.*)*)", text, re.M)
    if not line:
        return ""
    words = re.sub(r"\s+", " ", line[1]).strip()
    words = re.sub(r"^(?:--)?\S+ [A-Z|0-9]+ (?=[a-z])", "", words)
    return re.split(r"[;(]|, for ", re.sub(r"^(?:[a-z]+(?:, | or )?)+: ", "", words))[0].strip().rstrip(".")


def always(program):
    """The options that each task has; none of omf."""
    return [] if program == "omf" else QUESTIONS


def options_of(text, line):
    """The options of one line of a usage: each with the word after it, if it takes one, and its meaning."""
    found = []
    for option, word in re.findall(r"(--?[A-Za-z][a-z-]*)(?: ([A-Z]+|[a-z0-9]+(?:\|[a-z0-9]+)+))?", line):
        found.append((option, word, meaning(text, option)))
    return found


def table():
    """Each program with its tasks, and each task with its options. A program without tasks has one, the empty word."""
    programs = {}
    for program, text in sorted(texts().items()):
        usage = re.sub(r"\n +(?!omf|\s)", " ", text[len("usage: "):].split("\n\n")[0])
        tasks = {}
        for line in usage.split("\n"):
            head = re.match(rf"\s*{re.escape(program)} ((?:[a-z]+\|?)+)?", line)
            if head:
                REPEATED.update((program, it) for it in re.findall(r"\[(--?[a-zA-Z-]+) [^]]* \.\.\]", line))
                for task in (head[1] or "").split("|"):
                    tasks.setdefault(task, []).extend(it for it in options_of(text, line[head.end():]) if it not in tasks.get(task, []))
        programs[program] = tasks
    return programs


def values(word):
    """The values that a word of the usage lists."""
    return word.replace("|", " ") if "|" in word else ""


def bash(programs):
    """Completions for bash. What is no option and no value is a file."""
    lines = [f"# Completions for bash, {ABOUT}.", ""]
    for program, tasks in programs.items():
        name = "_" + program.replace("-", "_")
        lines += [f"{name}() {{", '    local task=${COMP_WORDS[1]} before=${COMP_WORDS[COMP_CWORD-1]} current=${COMP_WORDS[COMP_CWORD]} words=']
        if "" not in tasks:
            first = " ".join([*tasks, *(it for it, _, _ in always(program))])
            lines.append(f'    if [ "$COMP_CWORD" -eq 1 ]; then COMPREPLY=($(compgen -W "{first}" -- "$current")); return; fi')
        lines.append('    case "$task $before" in' if "" not in tasks else '    case "$before" in')
        for task, options in tasks.items():
            for option, word, _ in options:
                if word:
                    key = f"{task} {option}" if task else option
                    lines.append(f"        '{key}') COMPREPLY=($(compgen -W \"{values(word)}\" -- \"$current\")); return;;" if values(word) else f"        '{key}') return;;")
        lines += ["    esac", '    [[ $current == -* ]] || return']
        lines.append('    case "$task" in' if "" not in tasks else "    case '' in")
        for task, options in tasks.items():
            names = " ".join([it for it, _, _ in options] + ([it for it, _, _ in always(program)] if not task else []))
            lines.append(f"        '{task}') words=\"{names}\";;")
        lines += ["    esac", '    COMPREPLY=($(compgen -W "$words" -- "$current"))', "}", f"complete -o default -o bashdefault -F {name} {program}", ""]
    return "\n".join(lines)


def escaped(text, mark="'"):
    return text.replace("\\", "\\\\").replace(mark, f"'\\{mark}'" if mark == "'" else f"\\{mark}")


def zsh(programs):
    """Completions for zsh."""
    lines = ["#compdef " + " ".join(programs), f"# Completions for zsh, {ABOUT}.", ""]
    spec = lambda option, word, says: f"'{'*' * ((program, option) in REPEATED)}{option}[{escaped(says or option).replace('[', '(').replace(']', ')')}]" + (f":{word.lower() if '|' not in word else 'value'}:" + (f"({values(word)})" if values(word) else "_files") if word else "") + "'"
    lines.append("case $service in")
    for program, tasks in programs.items():
        if "" in tasks:
            lines.append(f"    {program}) _arguments {' '.join(spec(*it) for it in [*tasks[''], *always(program)])} '*:file:_files';;")
            continue
        lines += [f"    {program})", "        if (( CURRENT == 2 )); then", f"            _values 'task' {' '.join([*tasks, *(it for it, _, _ in always(program))])}", "            return", "        fi", "        local task=$words[2]; shift words; (( CURRENT-- ))", "        case $task in"]
        lines += [f"            {task}) _arguments {' '.join(spec(*it) for it in options)} '*:file:_files';;" for task, options in tasks.items()]
        lines += ["        esac;;"]
    return "\n".join([*lines, "esac", ""])


def fish(programs):
    """Completions for fish."""
    lines = [f"# Completions for fish, {ABOUT}.", ""]
    for program, tasks in programs.items():
        if "" not in tasks:
            lines.append(f"complete -c {program} -n __fish_use_subcommand -x -a '{' '.join(tasks)}'")
        for task, options in tasks.items():
            here = f" -n '__fish_seen_subcommand_from {task}'" if task else ""
            for option, word, says in options:
                flag = f"-l {option[2:]}" if option.startswith("--") else f"-s {option[1:]}"
                takes = f" -x -a '{values(word)}'" if values(word) else " -r" if word else ""
                lines.append(f"complete -c {program}{here} {flag}{takes}" + (f" -d '{escaped(says)}'" if says else ""))
        lines += [f"complete -c {program} -l {it[2:]} -d '{says}'" for it, _, says in always(program)] + [""]
    return "\n".join(lines)


def made():
    programs = table()
    return {"omf.bash": bash(programs), "_omf": zsh(programs), "omf.fish": fish(programs)}


def completed(line):
    """What bash completes a line to."""
    words = line.split(" ")
    name = "_" + words[0].replace("-", "_")
    script = f'source "{FOLDER}/omf.bash"; COMP_WORDS=({" ".join(words)}); COMP_CWORD={len(words) - 1}; {name}; echo "${{COMPREPLY[@]}}"'
    return subprocess.run(["bash", "-c", script], capture_output=True, text=True, check=False).stdout.strip()


def synopsis(page):
    """The tasks of a man page, with the options of each, as its SYNOPSIS has them."""
    tasks = {}
    for part in page.partition(".Sh SYNOPSIS\n")[2].partition("\n.Sh ")[0].split(".Nm")[1:]:
        lines = part.strip().split("\n")
        names = lines[0][len(".Cm "):].split(" | ") if lines[0].startswith(".Cm ") else [""]
        options = {"-" + it for line in lines for it in re.findall(r"(?<=Fl )\S+|(?<=\| )-\S+", line)}
        for name in names:
            tasks.setdefault(name, set()).update(options)
    return tasks


def differences(program, tasks, page):
    """Where the SYNOPSIS of a man page has other tasks or options than the usage."""
    always = {it for it, _, _ in QUESTIONS}
    found = {task: options - always for task, options in synopsis(page).items() if task in tasks or options - always}
    wanted = {task: {it for it, _, _ in options} for task, options in tasks.items()}
    for task in sorted(found.keys() | wanted.keys()):
        for option in sorted(found.get(task, set()) ^ wanted.get(task, set())):
            yield f"man/{program}.1, SYNOPSIS: {' '.join([task, option]).strip()} is {'too much' if option in found.get(task, set()) else 'missing'}"
        if (task in found) != (task in wanted):
            yield f"man/{program}.1, SYNOPSIS: the task {task} is {'too much' if task in found else 'missing'}"


def faults():
    """What does not agree."""
    for name, text in made().items():
        path = FOLDER / name
        if not path.is_file() or path.read_text(encoding="utf-8") != text:
            yield f"completions/{name} is not as the usage texts say, run tests/docs.py --write"
    for line, expected in TRIES.items():
        if completed(line) != expected:
            yield f"bash completes '{line}' to '{completed(line)}', not '{expected}'"
    for program, tasks in table().items():
        page = (ROOT / "man" / f"{program}.1").read_text(encoding="utf-8")
        yield from differences(program, tasks, page)
        page = re.sub(r"\bFl (?=\S)", "-", re.sub(r"\\f[A-Z]", " ", page)).replace("\\-", "-")
        known = {it for options in tasks.values() for it, _, _ in options}
        for option in sorted(set(re.findall(r"(?<![\w-])--[a-z][a-z-]*", page)) - known - {it for it, _, _ in QUESTIONS}):
            yield f"man/{program}.1 names {option}, which no task has"
        for option in sorted(known):
            if not re.search(rf"(?<![\w-]){re.escape(option)}(?![\w-])", page):
                yield f"man/{program}.1 does not name {option}"


def main():
    if sys.argv[1:] == ["--write"]:
        FOLDER.mkdir(exist_ok=True)
        for name, text in made().items():
            (FOLDER / name).write_text(text, encoding="utf-8")
        return 0
    if sys.argv[1:] != ["--check"]:
        sys.exit(__doc__)
    found = list(faults())
    print("".join(f"{it}\n" for it in found), end="")
    return 1 if found else 0


if __name__ == "__main__":
    sys.exit(main())
