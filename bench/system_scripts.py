#!/usr/bin/env python3
"""Usage: system_scripts.py [PROGRAM [FOLDER..]]

Reads the shell scripts that this system ships, those of which `bash -n` takes the text: each file in the folders, or in
/bin, /etc, /lib, /sbin, /usr and /opt where none is given, whose first line names sh, bash or dash. Tells how many of them
the parser reads, and of the others which are refused or nest too deep, at which line and with the line's text. Ends with 1
where one takes more than LONGEST seconds, or where the program ends without an answer.
"""
import os
import re
import subprocess
import sys
import tempfile

from probe_times import answer_to, hexadecimal

FOLDERS = ["/bin", "/etc", "/lib", "/sbin", "/usr", "/opt"]
FIRST_LINE = re.compile(rb"#!\s*(\S*/)?(env\s+)?(\S*/)?(ba|da)?sh(\s|$)")
LONGEST = 1.0


def scripts(folders):
    """The path and the text of each script, each text once"""
    seen = set()
    for folder in folders:
        for place, _, files in os.walk(folder):
            for file in sorted(files):
                text = script_text(os.path.join(place, file))
                if text is not None and text not in seen:
                    seen.add(text)
                    yield os.path.join(place, file), text


def script_text(path):
    """The text of a file, where it is a regular one and its first line names a shell"""
    try:
        if os.path.islink(path) or not os.path.isfile(path):
            return None
        with open(path, "rb") as file:
            if not FIRST_LINE.match(file.readline(200)):
                return None
            file.seek(0)
            return file.read()
    except OSError:
        return None


def bash_reads(text):
    """Whether bash takes the text, without running it"""
    return subprocess.run(["bash", "-n", "-O", "extglob"], input=text, capture_output=True, check=False).returncode == 0


def answer_of(program, text):
    """What the parser answers, none where the program gave no answer, and the processor seconds that it took"""
    with tempfile.TemporaryFile() as file:
        file.write(b"parse " + hexadecimal(text) + b"\n")
        file.flush()
        given, usage = answer_to(program, file)
        return (given.strip() or None) if given is not None else None, usage.ru_utime + usage.ru_stime


def line_of(text, answer):
    """The line that an answer names"""
    number = int(answer.split()[-1])
    lines = text.split(b"\n")
    return lines[number - 1].strip()[:100] if number <= len(lines) else b"(the end)"


def main(words):
    program = words[0] if words else "crates/probe/out/probe"
    read, ended, slowest = 0, 0, (0.0, "")
    others = []
    for path, text in scripts(words[1:] or FOLDERS):
        if not bash_reads(text):
            continue
        answer, seconds = answer_of(program, text)
        slowest = max(slowest, (seconds, path))
        if answer is None:
            ended += 1
            print(f"no answer: {path}")
        elif answer == b"script":
            read += 1
        else:
            others.append((path, answer, line_of(text, answer)))
    for path, answer, line in others:
        print(f"{answer.decode()}: {path}: {line.decode(errors='replace')}")
    print(f"{read} read, {len(others)} not read, {ended} without an answer; the longest took {slowest[0]:.2f} s: {slowest[1]}")
    return 1 if ended or slowest[0] > LONGEST else 0


if __name__ == "__main__":
    sys.exit(main(sys.argv[1:]))
