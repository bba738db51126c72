"""The manual page of the program, docs/ringpop.1, as `--help` and the texts below make it."""
import re
import subprocess

RUN = r"""
.TP
.BI "ringpop\-run agent " ARGUMENTS
Runs
.B ringpop agent
with these arguments, and on SIGTERM or SIGINT has the agent leave the cluster: it posts /stop to the address of
.BR \-\-http ,
by curl or wget, waits for the agent, and ends with its status. A second signal ends the agent immediately. Other commands are run unchanged.
"""
ENTRY = re.compile(r"  (\S+(?: \S+)*)(?: {2,}(\S.*))?")


def blocks_of(text):
    """The blocks of a text between empty lines, as lists of lines."""
    return [block.split("\n") for block in re.split(r"\n\n+", text.strip("\n"))]


class Help:
    """The parts of the help of a command: what it does, how it is called, its arguments and options, and the blocks below them."""

    def __init__(self, program, *command):
        text = subprocess.run([program, *command, "--help"], capture_output=True, text=True, timeout=20).stdout
        head, _, rest = text.partition("\n\nUsage: ")
        self.about = " ".join(head.split("\n"))
        self.usage, *blocks = rest.strip("\n").split("\n\n", 1)
        blocks = blocks_of(blocks[0]) if blocks else []
        self.entries = {}
        while blocks and blocks[0][0] in ("Commands:", "Arguments:", "Options:"):
            heading, *lines = blocks.pop(0)
            self.entries[heading[:-1]] = entries_of([re.sub("^ {6}--", "  --", line) for line in lines])
        self.below = blocks


def entries_of(lines):
    """The entries of an indented block as (term, text): a term has two spaces before it, and its text follows two more, or is indented below."""
    entries = []
    for line in lines:
        if found := ENTRY.fullmatch(line):
            entries.append((found[1], found[2] or ""))
        else:
            term, text = entries[-1]
            entries[-1] = term, f"{text} {line.strip()}".strip()
    return entries


def escaped(text):
    """A text with what is special in a manual page escaped."""
    return re.sub(r"^([.'])", r"\\&\1", text.replace("\\", r"\e").replace("-", r"\-"))


def usage(text):
    """A line of usage: the command in bold, and what a reader puts in, in italics."""
    words = [re.sub(r"<(\w+)>|(?<=\[)(HOST)(?=\])", lambda it: rf"\fI{it[1] or it[2]}\fR", escaped(word)) for word in text.split()]
    named = 2 if words[1:] and words[1].isalpha() else 1
    return rf"\fB{' '.join(words[:named])}\fR {' '.join(words[named:])}".strip()


def term(text):
    """An argument or option as it is named in a list: what a reader puts in, in italics, and the rest in bold."""
    parts = [rf"\fI{it[1:-1]}\fR" if it.startswith("<") else rf"\fB{escaped(it)}\fR" for it in re.sub(r"\[(HOST)\]\.\.\.", r"<\1>", text).split()]
    return " ".join(parts)


def listed(entries, name):
    return "".join(f".TP\n{name(left)}\n{escaped(right)}\n" for left, right in entries)


def indented(lines):
    """An indented block: a list if an entry has a text, and else paragraphs; a line with an object stays a line."""
    entries = entries_of(lines)
    if any(text for _, text in entries):
        return listed(entries, lambda it: rf"\fB{escaped(it)}\fR")
    return "\n".join(f".PP\n.nf\n{escaped(it)}\n.fi\n.PP" if it.startswith("{") else escaped(it) for it, _ in entries) + "\n"


def written(blocks, heading):
    """The blocks below a help: a line that ends in a colon, with an indented block below it, is a heading."""
    page = ""
    for block in blocks:
        if block[0].endswith(":") and block[1:] and block[1].startswith("  "):
            page += heading(block[0][:-1]) + indented(block[1:])
        else:
            page += ".PP\n" + "\n".join(map(escaped, block)) + "\n"
    return page


def made(program, version):
    """The page."""
    whole = Help(program)
    helps = [Help(program, name) for name, _ in whole.entries["Commands"] if name != "help"]
    page = f'.TH RINGPOP 1 "" "ringpop {version}"\n.ad l\n.SH NAME\nringpop, ringpop\\-run \\- the members of a cluster and the owners of its keys\n'
    page += ".SH SYNOPSIS\n" + "\n.br\n".join(usage(it.usage) for it in (whole, *helps)) + "\n"
    first = next(at for at, block in enumerate(whole.below) if block[0].endswith(":"))
    page += f".SH DESCRIPTION\n{escaped(whole.about)}.\n" + written(whole.below[:first], None) + ".SH COMMANDS\n"
    for it in helps:
        page += f".SS {usage(it.usage)}\n{escaped(it.about)}.\n"
        page += listed([entry for name in ("Arguments", "Options") for entry in it.entries.get(name, ()) if entry[0] != "-h, --help"], term)
        page += written(it.below, lambda text: f".PP\n{escaped(text)}:\n")
    page += ".SS Others\n" + listed(whole.entries["Options"] + [it for it in whole.entries["Commands"] if it[0] == "help"], term).rstrip("\n")
    return page + RUN + written(whole.below[first:], lambda text: f".SH {text.upper()}\n")
