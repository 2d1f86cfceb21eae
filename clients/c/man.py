"""Prints the man page raftlog.3, made of raftlog.h: its first comment, the codes, and each declaration with its comment.

man.py RAFTLOG_H
"""
import re
import sys

COMMENT = r"/\*((?:(?!\*/).)*)\*/"
CODE = re.compile(r"(?:%s\s*)?\b(RAFTLOG_[A-Z0-9_]+) = (\d+),?\n" % COMMENT, re.S)
FUNCTION = r"^((?:const )?[a-z][a-z0-9_ ]*[ *]raftlog_[a-z_]+\([^;]*\);)"
STRUCT = r"^((?:typedef struct|enum) \{.*?\}(?: \w+)?;|typedef \w+ raftlog_progress\([^;]*\);)"
PART = re.compile("%s|%s|%s" % (COMMENT, STRUCT, FUNCTION), re.S | re.M)


def plain(comment):
    return "\n".join(re.sub(r"^ ?\*? ?", "", line) for line in comment.strip().split("\n")).strip()


def escaped(text):
    return "\n".join("\\&" + line if line[:1] in (".", "'") else line for line in text.replace("\\", "\\e").split("\n"))


def roff(text):
    """Paragraphs begin after an empty line, or with an indented one; indented code stays as it is."""
    lines = []
    for line in escaped(text).split("\n"):
        is_code = re.match(r"  +(do |while|if |uint64)", line)
        if not line.strip() or line.startswith("  ") and not is_code:
            lines.append(".PP")
        if is_code:
            lines += [".br", "    " + line.strip(), ".br"]
        elif line.strip():
            lines.append(line.strip())
    return "\n".join(lines)


def head_of(text):
    """The first comment, whose parts begin with their names."""
    for part in re.split(r"\n\s*\n", plain(re.match(COMMENT, text, re.S)[1])):
        named = re.match(r"([A-Z][^.]{2,40})\. ", part)
        if named:
            yield ".SS %s" % named[1]
            part = part[named.end():]
        yield ".PP\n" + roff(part)


def codes_of(body):
    for comment, name, code in CODE.findall(body):
        yield ".TP\n.B %s\n%s" % ("%s (%s)" % (name, code), roff(plain(comment or "The call was carried out.")))


def parts_of(body):
    """Declarations, each with the comment before it."""
    said = ""
    for comment, struct, function in PART.findall(body):
        if comment:
            said = "" if comment.startswith(" ----") else plain(comment)
            continue
        yield ".PP\n.nf\n.B " + escaped(re.sub(r"\s+", " ", function)) + "\n.fi" if function else ".PP\n.nf\n" + escaped(struct) + "\n.fi"
        if said:
            yield ".RS\n" + roff(said) + "\n.RE"
        said = ""


def page_of(text):
    version = re.search(r'RAFTLOG_VERSION "(.*?)"', text)[1]
    body = text[text.index("#define RAFTLOG_VERSION"):text.rindex("#ifdef __cplusplus")]
    codes = body[body.index("enum {"):body.index("};")]
    yield '.TH RAFTLOG 3 "" "raftlog %s"' % version
    yield ".SH NAME\nraftlog \\- a log for many Raft groups, in a folder"
    yield ".SH SYNOPSIS\n.nf\n#include <raftlog.h>\n\ncc PROGRAM.c $(pkg\\-config \\-\\-cflags \\-\\-libs raftlog)\n.fi"
    yield from (".SH DESCRIPTION", *head_of(text), ".SH CODES", *codes_of(codes + "\n"), ".SH CALLS", *parts_of(body.replace(codes, "")))


if __name__ == "__main__":
    if len(sys.argv) != 2:
        sys.exit(__doc__)
    with open(sys.argv[1]) as header:
        print("\n".join(page_of(header.read())))
