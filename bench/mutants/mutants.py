#!/usr/bin/env python3
"""Changes one byte of a class file of bench/programs, COUNT times with a fixed seed, and compares what jvt says of the program with what
`java -Xverify:all` says of it. Prints how often each pair of answers came, and each mutant that one of the two verifiers refuses and the other
one accepts. usage: bench/mutants/mutants.py [COUNT]"""
import collections
import os
import pathlib
import random
import subprocess
import sys
import tempfile

TOP = pathlib.Path(__file__).resolve().parents[2]
ANSWERS = {65: 'bad class', 68: 'link', 69: 'verify', 70: 'accepted'}


def programs(work):
    """The folders of class files of each program that links, for each release of javac."""
    for source in sorted((TOP / 'bench/programs').glob('*.java')):
        wanted = source.read_text().split('\n', 1)[0]
        if not wanted.startswith('// links'):
            continue
        since = int(wanted.split('from ')[1]) if 'from ' in wanted else 8
        for release in (8, 11, 17):
            if release >= since:
                folder = work / str(release) / source.stem
                folder.mkdir(parents=True)
                subprocess.run(['javac', '--release', str(release), '-XDstringConcat=inline', '-nowarn', '-Xlint:-options',
                                '-d', folder, source], check=True, stderr=subprocess.DEVNULL)
                yield folder


def mutants(folders, count):
    """Pairs of a file, and an offset in it with another value for its byte."""
    for _ in range(count):
        file = random.choice(sorted(random.choice(folders).glob('*.class')))
        old = file.read_bytes()
        offset = random.randrange(8, len(old))
        byte = old[offset]
        yield file, offset, random.choice([random.randrange(256), (byte + 1) % 256, (byte - 1) % 256, byte ^ 1 << random.randrange(8)])


def jvt_answer(program, work, file, offset, value):
    changed = bytearray(file.read_bytes())
    changed[offset] = value
    copy = work / file.name
    copy.write_bytes(changed)
    files = [copy if other == file else other for other in sorted(file.parent.glob('*.class'))]
    run = subprocess.run([program, 'run', '?', *files], capture_output=True, timeout=60)
    copy.unlink()
    return ANSWERS.get(run.returncode, str(run.returncode)), run.stderr.decode(errors='replace').strip()


def main():
    random.seed(1)
    count = int(sys.argv[1]) if len(sys.argv) > 1 else 20_000
    subprocess.run([TOP / 'jvt', 'run', '?'], stdout=subprocess.DEVNULL, stderr=subprocess.DEVNULL)  # builds it
    with tempfile.TemporaryDirectory() as name:
        work = pathlib.Path(name)
        chosen = list(mutants(list(programs(work)), count))
        subprocess.run(['javac', '-d', work, TOP / 'bench/mutants/Verdicts.java'], check=True)
        lines = ''.join(f'{f.parent} {f.name} {offset} {value}\n' for f, offset, value in chosen)
        subprocess.run(['java', '-Xverify:all', '-cp', work, 'Verdicts', work / 'verdicts'], input=lines.encode(), check=True,
                       stderr=subprocess.DEVNULL)
        verdicts = (work / 'verdicts').read_bytes().decode(errors='replace').split('\n')
        pairs = collections.Counter()
        for (file, offset, value), verdict in zip(chosen, verdicts):
            answer, line = jvt_answer(TOP / 'crates/jvt/out/jvt', work, file, offset, value)
            error = verdict.split(' ')[0]
            pairs[answer, error] += 1
            if (answer, error) in (('accepted', 'VerifyError'), ('verify', 'accepted')):
                print(f'{file.parent.parent.name}/{file.parent.name}/{file.name} {offset} {value}: {line}; java: {verdict}')
        for (answer, error), n in pairs.most_common():
            print(f'{n:6} jvt: {answer}; java: {error}')


if __name__ == '__main__':
    os.environ['LC_ALL'] = 'C.UTF-8'
    main()
