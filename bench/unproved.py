"""Leaves the checks out of a module of the kit's `try`, given as LLVM's text: those of arithmetic, those of calls that may not be reached, and
the patterns with which new variables are filled. usage: unproved.py FROM TO"""

import re
import sys

CHECK = 'call void @"rattle-llvm-checks::'
IN_CHECK = re.compile(r'^define .*@"rattle-(?:llvm-checks|try::site)')
SANITIZED = " sanitize_address"


def is_left_out(line, in_check):
    """Whether a line is a check, ends one, or fills a variable that nothing has been written to."""
    text = line.lstrip()
    if text.startswith(CHECK):
        return True
    if in_check and text.startswith("call void @llvm.trap()"):
        return True
    return text.startswith("call void @llvm.memset") and "i8 -86," in text


def main():
    source, target = sys.argv[1:]
    in_check = False
    with open(source) as lines, open(target, "w") as out:
        for line in lines:
            if line.startswith("define"):
                in_check = bool(IN_CHECK.match(line))
            if not is_left_out(line, in_check):
                out.write(line.replace(SANITIZED, ""))


main()
