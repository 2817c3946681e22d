#!/usr/bin/env python3
"""Usage: expand.py [--check]

Writes expand.rows, which stands beside this script: requests on the expansion of words, with their answers. Each case
below is asked of bash 5.2 (`bash` of the path; LC_ALL=C). Where a case has no answer of its own, bash gives it. Where
it has one, which was worked out by hand from docs/expansion.md, it says whether bash agrees: a case of `same` must have
the answer of bash, one of `differs` must not, and one of `fault` names what bash does. A case that comes again is left
out. With --check nothing is written: the rows of the file are read, and must be what this script gives. Ends with 1
where anything is not so.

The form of a request is told at the head of the rows.
"""
import os
import re
import subprocess
import sys
import tempfile

HERE = os.path.dirname(os.path.abspath(__file__))
ROWS = os.path.join(HERE, "expand.rows")

HEAD = """\
# Words, and what they expand to. This file is written by expand.py, which says where the answers come from: bash 5.2
# (LC_ALL=C), but for those under a comment that begins with "Not as in bash", the faults, arithmetic texts and
# subscripts before they are evaluated, and the answers `run` and `no`; these were worked out by hand from
# docs/expansion.md. So were the steps. The probe does not answer this request yet.
#
# expand TEXT SETTING.. : TEXT is words as a command has them, expanded from a state with HOME=/homeless, IFS blank, tab
# and newline, no other variable, no arguments, status 0, failglob set and no other option. Each SETTING is one field:
#
#   NAME=TEXT        a variable             NAME[N]=TEXT     an element       NAME[]   an array without elements
#   N=TEXT           the argument N; those below it are given too
#   unset:NAME       it has no binding      readonly:NAME    it is readonly   status:N   the status
#   set:OPTION, clear:OPTION                failglob, nullglob, noglob or extglob
#   answer:TEXT      what the next command substitution gives, its last newlines removed before; it costs no step here
#   want:KIND        what TEXT is, where it is not words: `assigned`, an assigned value; `text`, a here-string;
#                    `pattern`, a pattern; `here`, the body of a here-document; `arith`, an arithmetic text;
#                    `subscript`, that of an assignment, without its brackets
#   against:TEXT     of a pattern, the text that it is matched with
#
# The answer is one of these:
#
#   ok TEXT.. steps N NAME=TEXT..   each field, or the one text; of a pattern `yes` or `no`, whether it matches, which
#                                   costs nothing here; the steps; each variable that changed, in the order of the
#                                   names, as above
#   fault TEXT steps N              the fault's text
#   run steps N                     a substitution is asked for, and no answer is left
#   no                              TEXT is not of its kind
"""

# ---- texts


def shown(text):
    """A text as a field of a row: printable bytes as they are"""
    if len(text) > 1000:
        return f'{len(text)}*"{text[0]}"'
    marks = {'"': '\\"', "\\": "\\\\", "\n": "\\n", "\t": "\\t"}
    return '"' + "".join(marks.get(c, c if " " <= c <= "~" else "\\x%02X" % ord(c)) for c in text) + '"'


def for_bash(text):
    """A text as a word of bash"""
    return "$'" + "".join(c if c.isalnum() else "\\x%02x" % ord(c) for c in text) + "'"


# ---- states: lists of settings


class Setting:
    """One setting: the field of the row, and the lines of bash that make the same"""

    def __init__(self, field, lines=""):
        self.field, self.lines = field, lines


def var(name, text):
    return [Setting(f"{name}={shown(text)}", f"{name}={for_bash(text)}")]


def array(name, elements):
    """An array of a list, or of texts by their indices"""
    if not isinstance(elements, dict):
        elements = dict(enumerate(elements))
    if not elements:
        return [Setting(f"{name}[]", f"{name}=()")]
    return [Setting(f"{name}[{at}]={shown(text)}", f"{name}[{at}]={for_bash(text)}") for at, text in elements.items()]


def args(*texts):
    """The arguments"""
    made = [Setting(f"{at}={shown(text)}") for at, text in enumerate(texts, 1)]
    if made:
        made[-1].lines = "set -- " + " ".join(map(for_bash, texts))
    return made


def unset(name):
    return [Setting(f"unset:{name}", f"unset {name}")]


def readonly(name):
    return [Setting(f"readonly:{name}", f"readonly {name}")]


def status(number):
    return [Setting(f"status:{number}", "")]


def on(option):
    return [Setting(f"set:{option}", "set -f" if option == "noglob" else f"shopt -s {option}")]


def off(option):
    return [Setting(f"clear:{option}", f"shopt -u {option}")]


def answers(*texts):
    """What the substitutions give, in their order: those of a word are `$(s1)`, `$(s2)` and so on"""
    return [Setting(f"answer:{shown(text)}", f"s{at}() {{ printf %s {for_bash(text)}; }}") for at,
            text in enumerate(texts, 1)]


def ifs(text):
    return var("IFS", text)


# ---- asking bash

NAME = re.compile(r"[A-Za-z_][A-Za-z0-9_]*")
OWN_NAMES = {"_", "HOME", "RANDOM", "SECONDS", "LINENO", "PIPESTATUS", "BASH_VERSION", "BASH_VERSINFO", "BASH_SOURCE"}

SHOW = """\
fields() { printf 'fields\\0%s\\0' "$#" >&3; [[ $# == 0 ]] || printf '%s\\0' "$@" >&3; }
show() {
  local - zn zi; set +f
  for zn; do
    declare -p "$zn" >/dev/null 2>&1 || continue
    declare -p "$zn" >&3; printf '\\0' >&3
    eval "printf '%s\\0' \\"\\${#$zn[@]}\\" >&3"
    eval "for zi in \\"\\${!$zn[@]}\\"; do printf '%s\\0' \\"\\$zi\\" \\"\\${$zn[\\$zi]}\\" >&3; done"
  done
}
"""


def expanding(text, want):
    """The command of bash that expands the text, and gives it to `fields`"""
    if want == "fields":
        return f"fields {text}"
    if want == "assigned":
        return f"zz={text}; fields \"$zz\""
    if want == "text":
        return f"mapfile -d '' zz <<< {text}; fields \"${{zz[0]%$'\\n'}}\""
    if want == "pattern":
        return f"case $subject in {text}) fields yes;; *) fields no;; esac"
    if want == "here":
        return f"mapfile -d '' zz <<ENDOFTEXT\n{text}ENDOFTEXT\nfields \"${{zz[0]}}\""
    return f"fields $(({text}))"


def script(text, state, want, against, out):
    """The lines of bash that expand a text in a subshell, and write to a file what comes of it"""
    names = sorted(set(NAME.findall(text + " " + " ".join(s.field for s in state))) - OWN_NAMES - {"s1", "s2", "s3"})
    number = next((s.field.split(":")[1] for s in state if s.field.startswith("status:")), "0")
    lines = ["(", f"exec 3>{out}", "subject=" + for_bash(against or "")]
    lines += [s.lines for s in state if s.lines]
    lines += [f"r() {{ return {number}; }}; r", f"eval {for_bash(expanding(text, want))}", "show " + " ".join(names),
            ")"]
    return "\n".join(lines) + "\n"


def ask_all(cases):
    """What bash gives for each case (text, state, want, against)"""
    with tempfile.TemporaryDirectory() as folder:
        scripts = [script(*one, f"../out/{at}") for at, one in enumerate(cases)]
        for name in ("empty", "out"):
            os.mkdir(os.path.join(folder, name))
        program = os.path.join(folder, "script")
        with open(program, "wb") as file:
            file.write((SHOW + "shopt -s failglob\nHOME=/homeless\n" + "".join(scripts)).encode("latin-1"))
        subprocess.run(["bash", "--norc", "--noprofile", "-c", f". {program}", "ebuild"], cwd=os.path.join(folder,
                "empty"),
                       env={"LC_ALL": "C", "PATH": os.environ["PATH"]}, stdin=subprocess.DEVNULL,
                       stderr=subprocess.DEVNULL,
                       stdout=subprocess.DEVNULL, check=False)
        return [told(os.path.join(folder, "out", str(at))) for at in range(len(cases))]


def told(path):
    """What a subshell wrote: the fields, or None where bash refuses; and each element of the names that occur"""
    with open(path, "rb") as file:
        parts = file.read().decode("latin-1").split("\0")[:-1]
    if not parts or parts[0] != "fields":
        return None, {}
    count = int(parts[1])
    fields, rest, after = parts[2:2 + count], parts[2 + count:], {}
    while rest:
        words, number = rest[0].split(), int(rest[1])
        name, is_array = words[2].split("=")[0], "a" in words[1]
        pairs = rest[2:2 + 2 * number]
        after[name] = {int(at) if is_array else None: text for at, text in zip(pairs[::2], pairs[1::2])}
        rest = rest[2 + 2 * number:]
    return fields, after


def before(state):
    """Each element of the variables of a state"""
    values = {}
    for setting in state:
        match = re.fullmatch(r"([A-Za-z_]\w*)(?:\[(\d+)\])?=.*", setting.field, re.S)
        if match:
            text = setting.lines.split("=", 1)[1]
            values.setdefault(match[1], {})[None if match[2] is None else int(match[2])] = text
    return values


def changed(state, after):
    """The fields of the variables that have changed: all elements of each"""
    old = before(state)
    made = []
    for name in sorted(after):
        if {at: for_bash(text) for at, text in after[name].items()} != old.get(name, {}):
            made += [f"{name}={shown(t)}" if at is None else f"{name}[{at}]={shown(t)}" for at,
                     t in sorted(after[name].items(), key=lambda e: e[0] or 0)]
    return made


# ---- rows

EQUAL = []      # arithmetic texts and states, and the texts that they are before they are evaluated
CASES = []      # comments, and (kind, text, state, want, against, steps, answer)


def group(title):
    CASES.append(title)


def case(text, state=(), want="fields", against=None, steps=0, answer=None, kind="bash"):
    """A case; `steps` are those that its arithmetic costs, one for each variable evaluated"""
    CASES.append((kind, text, list(state), want, against, steps, answer))


def differs(why, text, answer, state=(), **more):
    """A case where bash has another answer on purpose"""
    title = "Not as in bash: " + why
    if next(one for one in reversed(CASES) if isinstance(one, str)) != title:
        group(title)
    case(text, state, answer=answer, kind="differs", **more)


def fault(text, name, state=(), steps=0, bash="refuses", **more):
    """A fault; bash refuses it too, or `goes on`, or is `not asked` since it would need too much"""
    case(text, state, answer=f"fault {shown(name)} steps {steps}", kind=bash, **more)


def request(text, state, want, against):
    words = ["expand", shown(text)] + [s.field for s in state]
    words += [f"want:{want}"] if want != "fields" else []
    words += [f"against:{shown(against)}"] if against is not None else []
    return " ".join(words)


def answered(fields, after, state, want, steps):
    """The answer of a row, from what bash gives"""
    if fields is None:
        return None
    if want == "fields":
        steps += sum(len(f) + 1 for f in fields) // 64
    elif want != "pattern":
        steps += (len(fields[0]) + 1) // 64
    given = fields if want == "pattern" else [shown(f) for f in fields]
    return " ".join(["ok", *given, f"steps {steps}", *changed(state, {n: v for n, v in after.items() if n != "zz"})])


def is_as_told(kind, found, answer):
    """Whether bash does what a case says"""
    return {"bash": found is not None, "same": found == answer, "differs": found != answer, "refuses": found is None,
            "goes on": found is not None, "not asked": True}[kind]


def unequal():
    """The arithmetic texts for which bash has another value than for what they are said to be"""
    both = ask_all([(text, state, "arith", None) for text, state, _ in EQUAL])
    plain = ask_all([(text, state, "arith", None) for _, state, text in EQUAL])
    told_apart = zip(EQUAL, both, plain)
    return [f"not equal: {text}, {made}" for (text, _, made), a, b in told_apart if not a[0] or a[0] != b[0]]


def rows():
    """The lines of the file, and what is wrong"""
    asked = [one for one in CASES if not isinstance(one, str) and one[0] != "not asked"]
    given = dict(zip(map(id, asked), ask_all([one[1:5] for one in asked])))
    lines, wrong, seen = HEAD.splitlines(), unequal(), set()
    for one in CASES:
        if isinstance(one, str):
            lines += ["", "# " + one]
            continue
        kind, text, state, want, against, steps, answer = one
        row = request(text, state, want, against)
        if row in seen:
            continue
        seen.add(row)
        found = answered(*given.get(id(one), (None, {})), state, want, steps)
        if kind == "bash":
            answer = found
        if not is_as_told(kind, found, answer):
            wrong.append(f"{kind}: {row} => {answer}, bash: {found}")
        lines.append(f"{row} => {answer}")
    return lines, wrong


# ---- reading rows

BYTES = r'(?:"(?:[^"\\]|\\["\\nt]|\\x[0-9A-F]{2})*"|\d+\*"[^"]*")'
TEXT = rf"{BYTES}(?:\+{BYTES})*"
VARIABLE = rf"[A-Za-z_]\w*(?:\[\d+\])?={TEXT}"
WANTED = "want:(?:assigned|text|pattern|here|arith|subscript)"
OPTION = "(?:set|clear):(?:failglob|nullglob|noglob|extglob)"
SET = (rf"(?:{VARIABLE}|[A-Za-z_]\w*\[\]|\d+={TEXT}|(?:unset|readonly):[A-Za-z_]\w*|status:\d+"
       rf"|(?:answer|against):{TEXT}|{OPTION}|{WANTED})")
ENDED = rf"ok(?: yes| no|(?: {TEXT})*) steps \d+(?: {VARIABLE})*"
ROW = re.compile(rf"expand {TEXT}(?: {SET})* => (?:{ENDED}|fault {TEXT} steps \d+|run steps \d+|no)", re.S)


def main(words):
    if words not in ([], ["--check"]):
        print(__doc__)
        return 2
    version = subprocess.run(["bash", "--version"], capture_output=True, text=True, check=True).stdout.splitlines()[0]
    if "version 5.2" not in version:
        print("not bash 5.2: " + version)
        return 1
    lines, wrong = rows()
    text = "\n".join(lines) + "\n"
    wrong += [f"no row: {line}" for line in lines if line and not line.startswith("#") and not ROW.fullmatch(line)]
    if words == []:
        with open(ROWS, "w", encoding="utf-8") as file:
            file.write(text)
    else:
        with open(ROWS, encoding="ascii") as file:
            stored = file.read()
        if stored != text:
            there = stored.splitlines()
            at = next((i for i, (a, b) in enumerate(zip(there, lines)) if a != b), min(len(there), len(lines)))
            wrong.append(f"expand.rows is not what this script gives, from line {at + 1} on")
    for line in wrong:
        print(line)
    count = sum(1 for line in lines if line.startswith("expand "))
    faults = sum(1 for line in lines if line.startswith("expand ") and " => fault " in line)
    print(f"{count} rows, {faults} of them faults, {len(wrong)} wrong")
    return 1 if wrong else 0


# ---- cases: the forms of one variable, in each state and each place

SCALARS = (("x is unset", []), ("x is empty", var("x", "")), ("x is set", var("x", "ab*cb a")))

FORMS = ("$x", "${x}", "${x:-d e}", "${x-d e}", "${x:+d e}", "${x+d e}", "${x:=d e}", "${x=d e}", "${#x}", "${x#*b}",
         "${x##*b}", "${x%b*}", "${x%%b*}", "${x/b/- -}", "${x//b/- -}", "${x/#ab/- -}", "${x/%a/- -}", "${x//b}",
         "${x^}", "${x^^}", "${x^^[bc]}", "${x,}", "${x,,}", "${x:1}", "${x:1:4}", "${x: -3}", "${x: -4:2}",
         "${x:1:-1}")


def places(form, state):
    """A form unquoted, quoted, between other bytes, and assigned"""
    noglob = on("noglob")
    case(form, state + noglob)
    case(f'"{form}"', state)
    case(f"l{form}r", state + noglob)
    case(form, state, want="assigned")


def scalar_cases():
    for title, state in SCALARS:
        group(f"Each form of one variable, where {title}: unquoted, in double quotes, between bytes, and assigned.")
        for form in FORMS:
            if "1:-1" in form and state != SCALARS[2][1]:
                continue
            places(form, state)
    group("The same as a pattern: what is quoted stands for itself.")
    for text, subject in (("ab*cb a", "abXcb a"), ("a?", "ab"), ("[ab]", "b"), ("\\*", "*"), ("", "")):
        for form in ("$x", '"$x"', "${x:-q}", '"${x%}"', "${x%}", "${u-$x}", '${u-"$x"}'):
            case(form, var("x", text), want="pattern", against=subject)
    for form in ("a*", "'a*'", '"a"*', "\\a\\*", "[[:alpha:]]b", "~", "$'a*'", "?b"):
        case(form, want="pattern", against="ab")
        case(form, want="pattern", against="a*")


def value_cases():
    group("Where the word of an operator is expanded, and where it is not: a substitution, an assignment, arithmetic.")
    full, none = var("x", "v"), var("x", "")
    for op in (":-", "-", ":+", "+", ":=", "="):
        for state in ([], none, full):
            for word in ("${y:=w}", "$((y=1))"):
                case(f'"${{x{op}{word}}}"', state)
    case('"${x:-$(s1)}"', answers("out"))
    case('"${x+$(s1)}"', full + answers("out"))
    case('"${x-$(s1)}"', full, kind="same", answer='ok "v" steps 0')
    group("Operators in operators.")
    for form in ("${x:-${y:-z}}", '${x:-"${y:-z w}"}', '"${x:-${y:-z w}}"', "${x:-${y:-${w:-q r}}}", '"${x:+${y+n}}"',
                 "${x:-a${y}b}", '"${x:-"a b"}"', '"${x:-\'a\'}"', "${x:-'a b'}", "${x:-\\}}", "${x:-$'a\\tb'}",
                 '${x:-a"b c"d}'):
        for state in ([], var("x", "v"), var("y", "p q")):
            case(form, state)
    nested = var("x", "foo.tar.gz") + var("p", "*.")
    for form in ("${x#$p}", '${x#"$p"}', "${x##$p}", "${x#${p%.}}", "${x%${x#*.}}", "${x/${x%%.*}/${x##*.}}",
                 "${x:${#p}:${#p}+1}", "${x//./${p#?}}", "${x#\"${x%.gz}\"}", "${x^^${x:0:1}}", "${x//[ot]/<$p>}",
                 "${x/./'/'}", "${x/'.'/\"/\"}", "${x/\\./\\/}", "${x/%.gz/${p:1}xz}"):
        case(form, nested + on("noglob"))
        case(f'"{form}"', nested) if "'" not in form and '"' not in form and "\\" not in form else None


# ---- lists


LISTS = (("a is unset", []), ("a has no element", array("a", [])), ("a has one empty element", array("a", [""])),
         ("a is sparse", array("a", {0: "p q", 3: "", 7: "rp"})), ("a is a text", var("a", "p q")))

LIST_FORMS = ("${a[@]}", "${a[*]}", "${#a[@]}", "${#a[*]}", "${!a[@]}", "${!a[*]}", "${a[@]:1}", "${a[*]:0:2}",
              "${a[@]: -5}", "${a[@]#p}", "${a[*]%p}", "${a[@]/p/z}", "${a[@]^}", "${a[*]^^}", "${a[@]:-d e}",
              "${a[@]-d e}", "${a[*]:-d e}", "${a[@]+d e}", "${a[*]+d e}", "${a[@]:+d e}")

ONE_FORMS = ("$a", "${#a}", "${a[0]}", "${a[3]}", "${a[7]}", "${a[9]}", "${#a[7]}", "${a[7]#r}", "${a[9]-d e}",
             "${a[3]:-d e}", "${a[3]+s}", "${a[1+2*3]}", "${a[9]:=d e}", "${a[3]:=d e}", "${a[9]=d}", "${a+s}")


def list_cases():
    for title, state in LISTS:
        group(f"The lists of an array, where {title}: unquoted, in double quotes, between bytes, and assigned.")
        for form in LIST_FORMS:
            if title == "a is unset" and "!" in form or title == "a is a text" and form in ("${a[@]:1}", "${a[*]:0:2}"):
                continue
            case(form, state)
            case(f'"{form}"', state)
            case(f'"l{form}r"', state)
            case(form, state, want="assigned")
    for title, state in LISTS:
        group(f"One element, where {title}.")
        for form in ONE_FORMS:
            case(f'"{form}"', state)
    sparse = LISTS[3][1]
    group("One element: unquoted, assigned, by an index from the end, and by a variable, which costs a step.")
    for form in ("${a[0]}", "${a[3]}", "${a[-1]}", "${a[-8]}", "${a[-1]:0:1}", "${a[-1]/p/ }"):
        case(form, sparse)
        case(form, sparse, want="assigned")
    case('"${a[i]}" "${a[$i]}" "${a[i-7]}"', sparse + var("i", "7"), steps=2)
    case('"${a[i++]}" "$i"', sparse + var("i", "7"), steps=1)
    case('"${a[n[0]]}"', sparse + array("n", ["7"]), steps=1)


POSITIONALS = (("there is none", []), ("there is one, empty", args("")), ("there are three", args("p q", "", "r")),
               ("there are twelve", args(*[f"v{n}" for n in range(1, 13)])))


def positional_cases():
    forms = ("$1", "${1}", "${2:-d}", "${12}", "$12", "${#1}", "$#", "${#}", "${#@}", "${#*}", "$@", "$*", "${@}",
            "${@:2}", "${@:1:2}", "${@:0:1}", "${*:2}",
             "${@: -1}", "${@#p}", "${*%r}", "${@/p/z}", "${@^}", "${@:-d e}", "${*:-d e}", "${@-d e}", "${@+d e}",
             "${*+d e}", "${!#}", "$0", "${0}")
    for title, state in POSITIONALS:
        group(f"Arguments, where {title}: unquoted, in double quotes, and assigned.")
        for form in forms:
            if form == "${!#}" and not state:
                continue
            case(form, state)
            case(f'"{form}"', state)
            case(form, state, want="assigned")
    group("Lists beside other bytes and lists.")
    three = POSITIONALS[2][1]
    for form in ('"$@$@"', '"a$@b$@c"', '$@$@', '"$@"$*', '"$@" "$@"', "''$@", '$@""', '"$u$@"', '"$@$u"', 'x"$@"y',
                 '"$@"\'\'', '"$*$*"'):
        case(form, three)
        case(form)
    group("The status.")
    for number in (0, 1, 127, 255):
        case('$? "$?" "${?}" "${#?}" "${?:-d}"', status(number))


# ---- IFS


SEPARATORS = (("blank, tab and newline", []), ("unset", unset("IFS")), ("empty", ifs("")), ("a colon", ifs(":")),
              ("a colon and a blank", ifs(": ")), ("a blank and a colon", ifs(" :")),
              ("two bytes that are no blanks", ifs("-:")), ("a letter", ifs("b")), ("a newline", ifs("\n")),
              ("a backslash", ifs("\\")))


# the fields of an unquoted list `p q`, the empty text, `r:s`, where the first byte of IFS is no blank
UNQUOTED = {"a colon": '"p q" "r" "s"', "a colon and a blank": '"p" "q" "r" "s"',
            "two bytes that are no blanks": '"p q" "r" "s"', "a letter": '"p q" "r:s"', "a backslash": '"p q" "r:s"'}


def ifs_cases():
    value = var("x", " a : b::-c \n\\d:")
    items = array("a", ["p q", "", "r:s"]) + args("p q", "", "r:s")
    for title, state in SEPARATORS:
        group(f"IFS is {title}: what is split, and what lists are joined by.")
        for form in ("$x", "l${x}r", '$x"$x"', "$x$x", "${u:-a b:c}", '${u:-"a b":c}', "${u- $x }"):
            case(form, state + value)
        if title not in UNQUOTED:
            for form in ("$*", "$@", "${a[*]}"):
                case(form, state + items)
        for form in ('"$*"', '"$@"', '"${a[*]}"', '"${a[*]/r/b}"', '"${a[*]:1}"', '"${!a[*]}"'):
            case(form, state + items)
        for form in ("$*", '"$*"', "${a[*]}", '"$@"'):
            case(form, state + items, want="assigned")


# ---- the rest


    for title, state in SEPARATORS:
        if title in UNQUOTED:
            for form in ("$*", "$@", "${a[*]}"):
                differs("an empty element of an unquoted list gives no field, whatever IFS is.", form,
                        f"ok {UNQUOTED[title]} steps 0", state + items)


def indirect_cases():
    group("Indirection.")
    to = var("v", "x") + var("x", "foo bar")
    for form in ("${!v}", '"${!v}"', '"${!v#foo }"', '"${!v:4}"', '"${!v^}"', '"${!v/o/0}"', '"${!v:-d}"', '"${!v+d}"'):
        case(form, to)
    case("${!v}", to, want="assigned")
    case("${!v:-d e}", var("v", "u"))
    case('"${!v=new}" "$u"', var("v", "u"))
    items = array("a", {0: "p q", 5: "r"})
    for value in ("a[@]", "a[*]", "a[5]", "a[-1]", "a", "a[2+3]"):
        case('"${!v}"', items + var("v", value))
        case("${!v}", items + var("v", value))
    case('"${!v:1}"', items + var("v", "a[@]"))
    case('"${!v#p}"', items + var("v", "a[@]"))
    case('"${!1}" "${!2}"', args("x", "1") + var("x", "deep"))
    case('"${!v}"', var("v", "1") + args("one"))
    case('"${!v}"', var("v", "@") + args("one", "t w"))
    case('"${!v}"', var("v", "*") + args("one", "t w"))
    case('"${!v}"', var("v", "#") + args("one", "t w"))
    case('"${!a[1]}"', array("a", ["v", "x"]) + var("x", "val"))


def quote_cases():
    group("Quotes.")
    for form in ("a'b c'd", '"a b"c', "a\\ b", "''", '""', "''\"\"", "a''", "'' ''", "\"\\a\\$\\`\\\"\\\\\"", "'\\a'",
                 "\\a\\\\", '"$"', "$", "a$", '"a$ b"', "a\\\nb", '"a\\\nb"', "'a\nb'", '"a\nb"', "'\"'\"'\"",
                 '"$x"\'$x\'', "\\$x", '"\\$x"', '$"a $x"', '"${x}"y"${x}"', "a#b", "\\#a"):
        case(form, var("x", "v w"))
    group("What `$'..'` stands for.")
    for form in ("\\a\\b\\e\\E\\f", "\\n\\r\\t\\v", "\\\\\\'\\\"\\?", "\\1\\12\\123\\1234", "\\101\\501",
                 "\\x4\\x41\\x414", "\\q\\-", "a b", "$x", "\\x80\\377", ""):
        case(f"$'{form}'", var("x", "v"))
        case(f"l$'{form}'r", var("x", "v"))


def tilde_cases():
    group("Tildes: in words, in assigned values, in the words of operators, in here-strings.")
    for form in ("~", "~/", "~/a", "~a~", "a~", '"~"', "'~'", "\\~", '~"/a"', "a:~", "x=~", "${u:-~}", "${u-~/a}",
                 "${u:-a~}", '"${u:-~}"', "${u:=~}", "~$u", "$t", "~/$t"):
        case(form, var("t", "~")) if form != "x=~" else None
    for form in ("~", "~:~", "a:~/b:~c:~", "a:\\~", "'a:'~", "a\":\"~", "~/a:b", "a=~", ":~", "~:", "$t:~"):
        case(form, var("t", "~"), want="assigned")
    for form in ("~", "~/a", "a~", '"~"', "~$u"):
        case(form, var("t", "~"), want="text")
    for home in ("", "/a b", "*"):
        case("~ ~/x", var("HOME", home))
    case("${x#~} ${x%~} ${x/~/H} ${x##~/}", var("x", "/homeless/q"))


def brace_cases():
    group("Braces, before all else.")
    for form in ("{a,b}", "x{a,b}y", "{a,b}{c,d}", "{a,{b,c}}", "{1..4}", "{4..1..2}", "{a..e..2}", "{01..10..4}",
                 "{-2..2}", "{a}", "{}", "{a,}", '{"a,b",c}', "\\{a,b}", "{$x,$y}", '{"$x",y}', "${x}{1,2}",
                 '"${x}"{1,2}', "{a,b}$x", "$x{,}", "{'a b',c}", "{a,b", "a,b}", "{~,x}", "{~,x}/y", "x{a,b}{1..2}z",
                 "$((1+1)){a,b}"):
        case(form, var("x", "p q") + var("y", "r"))
    case("{a,b}", want="assigned")
    case("{1..3}", want="text")
    case("{a,b}", want="pattern", against="{a,b}")
    case("a{b,c}\"$x\"", var("x", "p q"))
    case("$x$x", var("x", "p q"))
    case('{"$(s1)","$(s2)"}', answers("one", "two"))


def arithmetic_cases():
    group("Arithmetic. A variable that is evaluated costs a step.")
    six = var("x", "6")
    for form, steps in (("1+2*3", 0), ("x+1", 1), ("$x+1", 0), ("${x}0", 0), ("x*x", 2), ("(x)", 1), ("x=7", 0),
                        ("x+=2", 1), ("x++", 1), ("--x", 1), ("u", 1), ("", 0), ("x>5?1:2", 1), ("1,2", 0), ("-x", 1),
                        ("${#x}+1", 0), ("${u:-4}*2", 0), ("16#ff", 0), ("0x1F", 0), ("010", 0), ('"2"+1', 0),
                        (" 1 ", 0)):
        case(f"$(({form}))", six, steps=steps)
        case(f'"$(({form}))"', six, steps=steps)
    case("$((x))", ifs("1") + var("x", "312"), steps=1)
    case('"$((x))"', ifs("1") + var("x", "312"), steps=1)
    case("$((y))", var("y", "x+1") + six, steps=2)
    case("$((a[1]+a[x-5]))", array("a", ["3", "4"]) + six, steps=3)
    case("$((a[2]=5))", array("a", ["3"]))
    case("$(($(s1)+1))", answers("41"))
    case('"${x:y}" "${x:y-1:y}" "${x:$y}"', var("x", "abcdef") + var("y", "2"), steps=3)
    case("${x:y=2} $y", var("x", "abcdef"))
    group("Arithmetic texts, before they are evaluated.")
    for form, text in (("1+$x", "1+6"), ("$((x))*2", "6*2"), ("${x:-2} + ${u:-2}", "6 + 2"), ("${#x}", "1"),
                       ("(1+$x)", "(1+6)")):
        EQUAL.append((form, six, text))
        case(form, six, want="arith", kind="not asked", answer=f"ok {shown(text)} steps {1 if 'x))' in form else 0}")


def subscript_cases():
    group("Subscripts of assignments, before they are evaluated: quotes go, and nothing is split.")
    for form, text in (("1+$x", "1+6 7"), ('"1"+\'2\'', "1+2"), (" 1 ", " 1 "), ("a[$x]", "a[6 7]"), ("${#x}", "3"),
                       ("~", "~"), ("{1,2}", "{1,2}"), ("\\1", "1"), ("$((1+1))", "2"), ("$*", "8:9")):
        state = var("x", "6 7") + args("8", "9") + ifs(":")
        case(form, state, want="subscript", kind="not asked", answer=f"ok {shown(text)} steps 0")
    fault("${u?m}", "UnsetParameter u m", want="subscript", bash="not asked")


def substitution_cases():
    group("Command substitutions: their last newlines go, the rest is split where it is not quoted.")
    for output in ("", "a", "a b", "a\n", "a\n\n\n", "\n\na", "a\nb\n", " a ", "\n", "a \n"):
        for form in ("$(s1)", '"$(s1)"', "l$(s1)r", '"l`s1`r"'):
            case(form, answers(output))
        case("$(s1)", answers(output), want="assigned")
    case("$(s1)$(s2)", answers("a ", "b"))
    case('"$(s1)"$(s2)', answers("a b\n", " c d"))
    case('${x:-$(s1)} "${x:=$(s2)}" "$x"', answers("a b", "c d\n"))
    case("$(s1)", answers("a:b c") + ifs(":"))
    case("$(s1)", answers("*") + on("noglob"))
    case("$(s1)", answers("~ $x {a,b}"))
    case('"$(:)"$x', var("x", "p q") + answers(""), kind="bash")
    group("A substitution that has no answer is asked for, from left to right; what stands before it is expanded.")
    for form in ("$(a)", '"$(a)"', "x`a`y", "${u:-$(a)}", "$(( $(a) + 1 ))", "${x:$(a)}", "${a[$(a)]}", "@($(a))",
                 "{$(a),b}"):
        case(form, kind="not asked", answer="run steps 0")
    case("$((x))$(a)", var("x", "1"), kind="not asked", answer="run steps 1")
    case("$(s1)$(s2)", answers("a"), kind="not asked", answer="run steps 0")


def pathname_cases():
    group("Pathnames, in an empty folder.")
    for form in ("*", "a*", "?", "[ab]", "a[!b]c", "$x", '"$x"', "'*'", "\\*", '"a"*', "[", "[a", "a]", "${u:-*}",
                 '${u:-"*"}', "*/a", "@(a|b)", "!(a)", "'['a]", "[a'b']"):
        special = any(mark in form for mark in "@!(") and "[!" not in form
        case(form, var("x", "a* b") + off("failglob") + (on("extglob") if special else []))
        case(form, var("x", "a* b") + off("failglob") + on("nullglob") + (on("extglob") if special else []))
        case(form, var("x", "a* b") + on("noglob") + (on("extglob") if special else []))
    case("*", want="assigned")
    case("$x", var("x", "*"), want="assigned")
    case("a*", want="text")
    case("[", [])
    case("'*' \"?\" \\[a]", [])
    group("Groups in patterns of operators.")
    for form in ("${x#@(a|b)}", "${x##+(a|b)}", "${x%?(c)}", "${x%%*(c)}", "${x/!(z)/-}", "${x//+([ab])/-}",
                 "${x/@($p)/-}", "${x^^@(a|b)}"):
        case(form, var("x", "abacc") + var("p", "b|ac") + on("extglob"))


def here_cases():
    group("Here-documents: no quotes, no splitting; a backslash before `$`, a backquote and a backslash.")
    for form in ("a b\n", "$x\n", "'$x' \"$x\"\n", "\\$x \\\\ \\a \\\"\n", "a\\\nb\n", "${x:-d}${u:-\"d e\"}\n",
                 "${u:-'d'}\n", "$@|$*\n", "${a[@]}|${a[*]}\n", "~ {a,b} *\n", "$((1+2)) `s1`\n", "$(s1)\n",
                 "${x#p}\n", "$\n", "\n", "", "$'a' $\"b\"\n", "${#x}${x/ /\\/}\n"):
        state = var("x", "p  q") + args("1 2", "3") + array("a", ["r", "s t"])
        case(form, state + (answers("out\n\n") if "s1" in form else []), want="here")
    group("Here-strings.")
    for form in ("$x", '"$x"', "a$x", "$@", "$*", '"$*"', "${a[@]}", '"${a[*]}"', "*", "${u:-a  b}", "''", "$u",
                 "a'b  c'"):
        state = var("x", " p  q ") + args("1 2", "3") + array("a", ["r", "s t"])
        case(form, state, want="text")
        case(form, state + ifs(":"), want="text")


def words_cases():
    group("Several words are one list: assignments act from left to right, and IFS is that at the end.")
    case('"${x:=a}" "$x" "${x:+b}"')
    case("$x $((i=1)) $i", var("x", "a1b"))
    case("a  b\tc", [])
    case('$u "" $u \'\'')
    case("$u", [])
    case('$e"$e"$e', var("e", ""))
    case('$s"a"$s', var("s", " "))
    case("a\\\n b", [])
    long = "abcdefgh" * 8
    case('"$x"', var("x", long[:62]))
    case('"$x"', var("x", long[:63]))
    case('"$x" "$x$x"', var("x", long[:63]))
    case("$x$x$x", var("x", long), want="assigned")
    group("Texts that are no words.")
    for text in ("a)", '"a', "'a", "${x", "$(a", "a;b", "a|b", "$((1", "`a", "a&", "${x y}", "<(", "${1x}"):
        case(text, kind="not asked", answer="no")


def differing_lists():
    text = var("a", "p q")
    why = "a text is its own element 0, and a slice of its elements takes elements."
    for form, answer in (("${a[@]:1}", "ok"), ('"${a[@]:1}"', "ok"), ('"l${a[@]:1}r"', 'ok "lr"'),
                         ("${a[*]:0:2}", 'ok "p" "q"'), ('"${a[*]:0:2}"', 'ok "p q"'),
                         ('"l${a[*]:0:2}r"', 'ok "lp qr"')):
        differs(why, form, answer + " steps 0", text)
    differs(why, "${a[@]:1}", 'ok "" steps 0', text, want="assigned")
    differs(why, "${a[*]:0:2}", 'ok "p q" steps 0', text, want="assigned")
    differs("all words are split by IFS as it stands at the end.", "$x ${IFS:=:} $x",
            'ok "a" "b c" "" "a" "b c" steps 0 IFS=":"', var("x", "a:b c") + unset("IFS"))
    differs("a separator at the end of an element and the end of the element are one.", "$@", 'ok "a" "b" steps 0',
            ifs(":") + args("a:", "b"))


def differing_cases():
    differing_lists()
    differs("an octal value counts modulo 256, and an escape that would give the byte 0 gives nothing.",
            "$'\\400\\401x'", 'ok "\\x01x" steps 0')
    differs("in a here-string a tilde after a colon stays.", "a:~", 'ok "a:~" steps 0', want="text")
    differs("in `[]` the `]` is itself, so that it closes nothing.", "[]", 'ok "[]" steps 0',
            off("failglob") + on("nullglob"))
    differs("in double quotes a backslash before a `}` is itself, and the `}` ends the operator.", '"${x:-\\}}"',
            'ok "\\\\}" steps 0')
    differs("in double quotes a backslash before a `}` is itself, and the `}` ends the operator.", '"${x:-\\}}"',
            'ok "v}" steps 0', var("x", "v"))
    x = var("x", "abc")
    differs("a `&` in the new text is a plain byte.", "${x/b/<&>}", 'ok "a<&>c" steps 0', x)
    differs("a `&` of a variable is plain too.", "${x//[ab]/$r}", 'ok "&-&-c" steps 0', x + var("r", "&-"))
    differs("`//` skips matches of no bytes.", '"${x//*(b)/-}"', 'ok "a-c" steps 0', x + on("extglob"))
    differs("`//` skips the empty match of an empty text.", '"${x//*/-}"', 'ok "" steps 0', var("x", ""))
    differs("an empty pattern changes no case.", '"${x^^$e}"', 'ok "abc" steps 0', x + var("e", ""))
    differs("an empty pattern changes no case.", '"${x^$e}"', 'ok "abc" steps 0', x + var("e", ""))
    differs("an offset that is written as nothing is 0.", "${x:}", 'ok "abc" steps 0', x)
    differs("a `}` belongs to the nearest `{`.", "{a}b,c}", 'ok "{a}b,c}" steps 0')
    differs("a number with a plus is padded.", "{+01..3}", 'ok "001" "002" "003" steps 0')
    differs("a pair inside of a text is read on its own.", "{{1..3}..5}", 'ok "{1..5}" "{2..5}" "{3..5}" steps 0')
    differs("`{$,x}1` gives no parameter `$1`.", "{$,x}1", 'ok "$1" "x1" steps 0', args("p"))
    differs("an escape that would give the byte 0 gives nothing.", "$'a\\0b'", 'ok "ab" steps 0')
    differs("`\\x{` stays.", "$'\\x{41}'", 'ok "\\\\x{41}" steps 0')
    differs("a name ends before a backslash with a newline.", "$x\\\ny", 'ok "abcy" steps 0', x)


# ---- faults


def substitution_faults():
    group("BadSubstitution: `=` on what takes no value.")
    for form, name in (("${1=w}", "1"), ("${1:=w}", "1"), ("${10=w}", "10"), ("${@=w}", "@"), ("${*:=w}", "*"),
                       ("${@:=w}", "@"), ("${a[@]=w}", "a"), ("${a[*]:=w}", "a")):
        fault(form, f"BadSubstitution {name}")
    group("Not as in bash: it is BadSubstitution also where there is a value.")
    fault("${1=w}", "BadSubstitution 1", args("v"), bash="goes on")
    fault("${@:=w}", "BadSubstitution @", args("v"), bash="goes on")
    fault("${?=w}", "BadSubstitution ?", bash="goes on")
    fault("${#=w}", "BadSubstitution #", bash="goes on")
    fault("${a[@]=w}", "BadSubstitution a", array("a", ["v"]), bash="goes on")
    group("BadSubstitution: an indirection through what is no reference.")
    for value in ("", "1a", "a b", "a[1", "a[]", "a-b", "a[@]x", "$x", "a["):
        fault("${!x}", "BadSubstitution x", var("x", value))
    fault("${!x}", "BadSubstitution x")
    fault("${!x-d}", "BadSubstitution x")
    fault("${!a[1]}", "BadSubstitution a", array("a", ["v", "1a"]))
    fault("${!x=w}", "BadSubstitution x", var("x", "1"))
    fault("${!1}", "BadSubstitution 1", args("a b"))
    group("BadSubstitution: a slice with a length below 0, or a substring that ends before it begins.")
    fault("${x:5:-9}", "BadSubstitution x", var("x", "foo.tar.gz"))
    fault("${x:2:-2}", "BadSubstitution x", var("x", "abc"))
    fault("${a[@]:0:-1}", "BadSubstitution a", array("a", ["p", "q"]))
    fault("${@:1:-1}", "BadSubstitution @", args("p", "q"))
    fault("${*:1:-1}", "BadSubstitution *", args("p", "q"))
    fault("${a[2]:1:-3}", "BadSubstitution a", array("a", {2: "abc"}))
    fault("${!v:2:-2}", "BadSubstitution v", var("v", "x") + var("x", "abc"))
    group("Not as in bash: the end is looked at also past the text, and the length of a slice where nothing is taken.")
    fault("${x:4:-1}", "BadSubstitution x", var("x", "abc"), bash="goes on")
    fault("${a[@]:5:-1}", "BadSubstitution a", array("a", ["p"]), bash="goes on")
    fault("${a[@]:0:-1}", "BadSubstitution a", array("a", []), bash="goes on")


def unset_faults():
    group("UnsetParameter: the name, and the word's text as words with one blank between two, or `-`.")
    for form, text in (("${u?no}", "u no"), ("${u:?no}", "u no"), ("${u?}", "u -"), ("${u:?a  b}", "u a b"),
                       ("${u?$x}", "u v w"), ('${u?"a b"}', "u a b"), ("${1?m}", "1 m"), ("${e:?m}", "e m"),
                       ("${@?m}", "@ m"), ("${*:?m}", "* m"), ("${a[3]?m}", "a m"), ("${a[@]?m}", "a m"),
                       ('"${u?\'q\'}"', "u 'q'"), ("${u?~}", "u /homeless"), ("${u?$((1+2))}", "u 3"),
                       ("${x:+${u?in}}", "u in")):
        fault(form, f"UnsetParameter {text}", var("x", "v w") + var("e", ""))
    fault("${!x?m}", "UnsetParameter x m", var("x", "u"))
    fault("${u?m}", "UnsetParameter u m", want="assigned")
    fault("${u?m}\n", "UnsetParameter u m", want="here")
    fault('"$((x))${u?m}"', "UnsetParameter u m", var("x", "1"), steps=1)


def unsupported_faults():
    group("Unsupported, which bash has: the parameters of processes, transformations, names by a prefix.")
    for form, what in (("$$", "$$"), ("${$}", "$$"), ('"$$"', "$$"), ("$!", "$!"), ("$-", "$-"), ("${#-}", "$-"),
                       ("${x@Q}", "transformation"), ("${x@U}", "transformation"), ("${a[@]@Q}", "transformation"),
                       ("${!x@}", "prefix names"), ("${!x*}", "prefix names"), ("$'\\u41'", "quoting"),
                       ("$'\\U41'", "quoting"), ("$'\\cA'", "quoting"), ("$RANDOM", "RANDOM"), ("$SECONDS", "SECONDS"),
                       ("$LINENO", "LINENO"), ("${#RANDOM}", "RANDOM"), ("${RANDOM+x}", "RANDOM"),
                       ("${BASH_VERSION:-x}", "BASH_VERSION"), ("${BASH_VERSINFO[0]}", "BASH_VERSINFO"),
                       ("${BASH_VERSINFO[@]}", "BASH_VERSINFO"), ("$BASH_SOURCE", "BASH_SOURCE"),
                       ("${PIPESTATUS[0]}", "PIPESTATUS"), ("$((RANDOM))", "RANDOM"), ("<(:)", "process substitution"),
                       (">(:)", "process substitution")):
        fault(form, f"Unsupported {what}", var("x", "v"), bash="goes on")
    fault("${!x}", "Unsupported RANDOM", var("x", "RANDOM"), bash="goes on")
    fault("$RANDOM", "Unsupported RANDOM", want="assigned", bash="goes on")
    group("What stands before the refused form is expanded first.")
    fault("${a[1/0]@Q}", "ArithDivZero 1/0")
    fault("${BASH_VERSINFO[1/0]}", "ArithDivZero 1/0")
    fault("${u?m}$$", "UnsetParameter u m")
    fault("$((x))$$", "Unsupported $$", var("x", "1"), steps=1, bash="goes on")


def arithmetic_faults():
    group("Faults of arithmetic, with the whole expression.")
    for form, text in (("$((1+))", "ArithSyntax 1+"), ("$((08))", "ArithSyntax 08"), ("$((1 2))", "ArithSyntax 1 2"),
                       ("$((2**-1))", "ArithNegative 2**-1"), ("$((1/0))", "ArithDivZero 1/0"),
                       ("$((1%0))", "ArithDivZero 1%0"), ("${a[1/0]}", "ArithDivZero 1/0"),
                       ("${a[1 2]}", "ArithSyntax 1 2"), ("${x:1/0}", "ArithDivZero 1/0"),
                       ("${x:0:1%0}", "ArithDivZero 1%0"), ("${x:1 2}", "ArithSyntax 1 2"),
                       ("$((1+$x))", "ArithSyntax 1+v w"), ("${a[1/0]=w}", "ArithDivZero 1/0")):
        fault(form, text, var("x", "v w"))
    fault("$((x))", "ArithNesting x", var("x", "x"), steps=65)
    fault("${a[x]}", "ArithNesting x", var("x", "x"), steps=65)
    fault("$((1/x))", "ArithDivZero 1/x", var("x", "0"), steps=1)
    group("Not as in bash: 65 parentheses are too many.")
    fault("$((" + "(" * 65 + "1" + ")" * 65 + "))", "ArithNesting " + "(" * 65 + "1" + ")" * 65, bash="goes on")
    group("Not as in bash: an operator's words are expanded also where the parameter is unset.")
    fault("${u:1/0}", "ArithDivZero 1/0", bash="goes on")
    group("Not as in bash: a subscript is evaluated also where the array is unset.")
    fault("${#a[1/0]}", "ArithDivZero 1/0", bash="goes on")
    group("BadSubscript: an index before the first element. Bash goes on where it is read, with a message.")
    for form, state in (("${a[-3]}", array("a", ["p", "q"])), ("${a[-9]}", array("a", {3: "p"})),
                        ("${a[-1]}", array("a", [])), ("${a[-1]}", []), ("${a[-2]}", var("a", "p")),
                        ("${a[-9]-w}", array("a", ["p"])), ("${a[-9]#p}", array("a", ["p"])),
                        ("$((a[-9]))", array("a", ["1"]))):
        fault(form, "BadSubscript a", state, bash="goes on")
    fault("${!v}", "BadSubscript a", array("a", ["p"]) + var("v", "a[-7]"), bash="goes on")
    group("BadSubscript, where bash refuses too.")
    fault("${#a[-5]}", "BadSubscript a", array("a", ["p"]))
    fault("${a[-9]=w}", "BadSubscript a", array("a", ["p"]))


def other_faults():
    group("Readonly.")
    for form in ("${r:=w}", "$((r=1))", "$((r+=0))", "${r[2]=w}"):
        fault(form, "Readonly r", var("r", "") + readonly("r"), steps=1 if "+=" in form else 0)
    fault("${!v:=w}", "Readonly r", var("v", "r") + var("r", "") + readonly("r"))
    fault("${r=w}", "Readonly r", readonly("r"))
    group("GlobFailed, with the field after quote removal.")
    for form, text in (("*", "*"), ("a*", "a*"), ("?", "?"), ("[ab]", "[ab]"), ("$x", "p*"), ("${u:-*}", "*"),
                       ('"b"*', "b*"), ('x"*"*', "x**"), ("a b *", "*"), ("*/b", "*/b"), ("{a,b*}", "b*"),
                       ("${a[@]}", "q?"), ("~/*", "/homeless/*"), ("\\**", "**"), ("*'a b'", "*a b")):
        fault(form, f"GlobFailed {text}", var("x", "p* q*") + array("a", ["p", "q?"]))
    fault("@(a|b)", "GlobFailed @(a|b)", on("extglob"))
    fault("$(s1)", "GlobFailed *", answers("*"))
    fault("*", "GlobFailed *", on("nullglob"))
    group("BraceCount, PatternDeep, DepthLimit. Bash has no such limits.")
    for form in ("{1..65537}", "{1..65536}{1..2}", "{1..9223372036854775807}", "x{1..256}{1..257}", "{{1..65536},b}"):
        fault(form, "BraceCount", bash="not asked")
    deep = "@(" * 65 + "a" + ")" * 65
    for form in ("${x#$p}", "${x%%$p}", "${x/$p/}", "${x^^$p}"):
        fault(form, "PatternDeep", var("x", "a") + var("p", deep) + on("extglob"), bash="not asked")
    fault("${!x}", "DepthLimit", var("x", "a[${!x}]"), bash="not asked")


def limit_faults():
    group("Limits of sizes and of steps, before the memory; not asked of bash. A value of 1,048,576 bytes is accepted.")
    full = 1048576
    whole = var("x", "a" * full)
    case('"${#x}"', whole, kind="not asked", answer='ok "1048576" steps 0')
    fault('"${x}a"', "ValueSize", whole, bash="not asked")
    fault("$x$u'a'", "ValueSize", whole, bash="not asked")
    fault("$x$x", "ValueSize", whole, want="assigned", bash="not asked")
    fault("${x}a\n", "ValueSize", whole, want="here", bash="not asked")
    fault("${u:=${x}a}", "ValueSize", whole, bash="not asked")
    fault(" ".join(['"$x"'] * 32), "TotalSize", whole, bash="not asked")
    fault(" ".join(['"$x"'] * 31 + ['"${x}a"']), "ValueSize", whole, bash="not asked")
    fault("${x//a/bb}", "StepsSpent", whole, steps=5000000, bash="not asked")
    fault("${x/#a/bb}", "StepsSpent", whole, steps=5000000, bash="not asked")
    fault("${x//a/$y}", "ValueSize", var("x", "a" * 65536) + var("y", "b" * 17), steps=1048576, bash="not asked")
    fault('"${x#b}${u?m}"', "UnsetParameter u m", whole, steps=16384, bash="not asked")
    doubled = '"${b:=$x$x}" "${c:=$b$b}"'
    fault(doubled, "ValueSize", var("x", "a" * 524288), bash="not asked")


scalar_cases()
value_cases()
list_cases()
positional_cases()
ifs_cases()
indirect_cases()
quote_cases()
tilde_cases()
brace_cases()
arithmetic_cases()
subscript_cases()
substitution_cases()
pathname_cases()
here_cases()
words_cases()
differing_cases()
substitution_faults()
unset_faults()
unsupported_faults()
arithmetic_faults()
other_faults()
limit_faults()

if __name__ == "__main__":
    sys.exit(main(sys.argv[1:]))
