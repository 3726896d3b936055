#!/usr/bin/env python3
"""Compares the built-in classes, as crates/lib_table/specs declares them, with the JDK: the flags of classes and members, superclasses and
superinterfaces. Superclasses and superinterfaces that the table doesn't have, private members and internal classes are left out. Prints each
difference. It needs `javap` of JDK 25. usage: bench/library.py [JAVAP]"""
import pathlib
import re
import subprocess
import sys

SPECS = pathlib.Path(__file__).resolve().parents[1] / 'crates/lib_table/specs'
JAVAP = sys.argv[1] if len(sys.argv) > 1 else 'javap'
COMPARED = {'public', 'private', 'protected', 'static', 'final', 'abstract', 'interface'}
# A class, or a member of the class before it.
DECLARATION = re.compile(r'\b(class|throwable|field|method|native_method|abstract_method) (\([a-z +]*\)|\w+) "([^"]+)" (.*)')


def flags_of(text):
    """The flags in the words of Java, of those that are compared."""
    return set(re.findall(r'\w+', text.lower().replace('acc_', ''))) & COMPARED


def table():
    """The declared classes by name, each with its flags, what is directly above it, and its members by name and descriptor."""
    classes = {}
    for file in sorted(SPECS.glob('*.antt')):
        for kind, flags, name, rest in DECLARATION.findall(file.read_text()):
            names = re.findall('"([^"]+)"', rest)
            if kind in ('class', 'throwable'):
                own = {('<init>', '()V'): {'public'}, ('<init>', '(Ljava/lang/String;)V'): {'public'}} if kind == 'throwable' else {}
                last = classes[name] = (flags_of(flags), set(names), own)
            else:
                last[2][name, names[0]] = flags_of(flags)
    return classes


def in_jdk(name):
    """The same of a class of the JDK."""
    text = subprocess.run([JAVAP, '-p', '-v', name.replace('/', '.')], check=True, capture_output=True, text=True).stdout
    header = re.search(r'^(?=.*\b(?:class|interface) )(?:\w.*)', text, re.M).group()
    while '<' in header:
        header = re.sub('<[^<>]*>', '', header)
    above = {word.replace('.', '/') for part in re.findall(r'(?:extends|implements) (.*?)(?= implements|$)', header) for word in part.split(', ')}
    members = {}
    for line, descriptor, flags in re.findall(r'^  (\S.*);\n    descriptor: (\S+)\n    flags: \(\w+\)(.*)', text, re.M):
        member = re.search(r'([\w.${}]+)(?:\(| =|$)', line).group(1)
        members['<init>' if member.replace('.', '/') == name else member, descriptor] = flags_of(flags)
    return flags_of(re.search(r'^  flags: \(\w+\)(.*)', text, re.M).group(1)), above, members


def main():
    classes = table()
    for name, (flags, above, members) in classes.items():
        if name.startswith('jvt/') or '$' in name and not flags & {'public'}:
            continue
        found, found_above, found_members = in_jdk(name)
        if flags != found:
            print(f'{name}: {sorted(flags)}, in the JDK {sorted(found)}')
        here = above - {'java/lang/Object'}
        there = found_above & classes.keys() - {'java/lang/Object'}
        if here != there:
            print(f'{name} is below {sorted(here)}, in the JDK {sorted(there)}')
        for (member, descriptor), wanted in members.items():
            found = found_members.get((member, descriptor), set())
            if 'private' not in wanted and wanted != found:
                print(f'{name}.{member}{descriptor}: {sorted(wanted)}, in the JDK {sorted(found)}')
    print(f'{len(classes)} classes')


main()
