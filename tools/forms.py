#!/usr/bin/env python3
"""Counts, in crates/*/src, the places that could have a newer form, and lists them: docs/DESIGN-PASS.md has the counts.
usage: tools/forms.py [POINT..]     (in the repository's root; points 1 to 7, or all)"""
import collections
import glob
import re
import sys

FILES = sorted(glob.glob('crates/*/src/**/*.rt', recursive=True))
SKIPPED = re.compile(r'\b(if|else|match|while|for|in|let|mut|return|fn|pub|as|true|false|self|u8|u16|u32|u64|usize|i16|i32|bool)\b')


def lines():
    for name in FILES:
        for number, line in enumerate(open(name), 1):
            yield name, number, line.rstrip('\n')


def functions():
    """Each function: file, line, name, signature, body."""
    for name in FILES:
        text = open(name).read()
        for found in re.finditer(r'^( *)(?:pub(?:\(\w+\))? )?(?:extern "C" )?fn (\w+)', text, re.M):
            indent = found.group(1)
            opened = re.compile(r'^' + indent + r'\{$', re.M).search(text, found.end())
            plain = re.compile(r'\{$', re.M).search(text, found.end())
            start = opened or plain
            if not start:
                continue
            end = re.compile(r'^' + indent + r'\}$', re.M).search(text, start.end())
            if not end:
                continue
            yield name, text.count('\n', 0, found.start()) + 1, found.group(2), text[found.start():start.start()], text[start.end():end.start()]


def bare(text):
    return re.sub(r'//.*', '', text)


def shape(body):
    """A body with its names and numbers taken out."""
    text = re.sub(r'\b[A-Za-z_]\w*\b', lambda w: w.group(0) if SKIPPED.fullmatch(w.group(0)) else 'n', bare(body))
    return re.sub(r'\s+', ' ', re.sub(r'\b\d\w*\b', '0', text)).replace(', }', ' }').replace(',)', ')').strip()


def parameters(signature):
    inside = signature[signature.index('(') + 1:]
    depth, out, part = 0, [], ''
    for sign in inside:
        depth += sign in '([<{'
        depth -= sign in ')]>}'
        if depth < 0:
            break
        if sign == ',' and depth == 0:
            out.append(part)
            part = ''
        else:
            part += sign
    return [re.sub(r'\s+', ' ', p).strip() for p in out + [part] if p.strip()]


def shared(groups, least, kind):
    """The members of each group that has so many."""
    for found in groups.values():
        if len(found) >= least:
            for name, number, text in found:
                yield name, number, kind % len(found), text


def point1():
    """Enums of a crate's own; flags in structs; kinds and refusals as numbers."""
    for name, number, line in lines():
        code = line.split('//')[0]
        if re.match(r'\s*(pub(\(crate\))? )?enum ', code):
            yield name, number, 'enum', line
        elif re.match(r'    (pub(\(crate\))? )?\w+: bool,$', code):
            yield name, number, 'flag', line
        elif re.match(r'\s+(0x)?\d+( \| \d+)* => ', code):
            yield name, number, 'arm of a number', line
        elif re.match(r'    (pub(\(crate\))? )?(refusal|outcome|mode|state|kind): ', code) or re.search(r'\b(NO_IMAGE|TOO_WIDE)\b.*=', code):
            yield name, number, 'number or refusal', line


def point2():
    """Functions whose bodies differ only in names and numbers, and structs with fields of one name."""
    groups = collections.defaultdict(list)
    for name, number, function, signature, body in functions():
        if len(shape(body)) > 30:
            groups[shape(body)].append((name, number, function))
    yield from shared(groups, 2, 'twin of %d')
    types = collections.defaultdict(list)
    for name in FILES:
        text = open(name).read()
        for found in re.finditer(r'^(?:pub(?:\(crate\))? )?struct (\w+)[^{;(]*\{(.*?)^\}', text, re.M | re.S):
            fields = tuple(re.findall(r'(\w+): ', found.group(2)))
            types[fields].append((name, text.count('\n', 0, found.start()) + 1, found.group(1)))
    yield from shared(types, 2, 'type with the fields of %d')


def point3():
    """Loops that are no `for`, and recursion."""
    for name, number, line in lines():
        if re.match(r'\s*(while|loop)\b', line):
            yield name, number, 'loop', line
    for name, number, function, signature, body in functions():
        if re.search(r'(?<![\w.:])' + function + r'\(', bare(body)):
            yield name, number, 'recursion', function


def point4():
    """Equality, order, copying, conversion and printing by hand."""
    for name, number, function, signature, body in functions():
        text = bare(body)
        arms = re.findall(r'=> (\w+),', text)
        if len(arms) > 1 and all(a in ('true', 'false') for a in arms):
            yield name, number, 'a kind asked by arms', function
        if re.search(r'(\w+): ([\w.]+)\.\1,\s+(\w+): \2\.\3,', text):
            yield name, number, 'copied field by field', function
        if re.search(r'\((\w+)\.(\w+) == (\w+)\.\2\)\s*& \(\1\.(\w+) == \3\.\4\)', text):
            yield name, number, 'compared field by field', function
        if re.fullmatch(r'\s*if (\w+) (<|<=|==) (\w+|\d+) \{ [^{}]* \} else \{ [^{}]* \}\s*', text) or re.search(r'\b(4294967295|65535|32768|2147483648)\b', text):
            yield name, number, 'a number made by a test', function
        if re.match(r'(put|lay_(answer|memory))|hex_digit|separator', function):
            yield name, number, 'printed by hand', function
        for let in re.findall(r'let (\w+) = [\w.]+\.\1;', text):
            yield name, number, 'a field copied out', function + ': ' + let


def point5():
    """Facts in the requires of three or more functions, and parameters that three or more functions take together."""
    facts, together = collections.defaultdict(set), collections.defaultdict(set)
    for name, number, function, signature, body in functions():
        crate = name.split('/')[1]
        asked = re.search(r'requires (?:\w+ )?\{(.*?)\}\s*(?:ensures|requires|$)', signature, re.S)
        for fact in (re.sub(r'\s+', ' ', asked.group(1)) if asked else '').split(' × '):
            if fact.strip(' ()'):
                facts[crate, fact.strip(' ()')].add((name, number, function))
        taken = [p for p in parameters(signature) if ':' in p]
        for i in range(len(taken)):
            for j in range(i + 1, len(taken)):
                for k in range(j + 1, len(taken)):
                    together[crate, '; '.join((taken[i], taken[j], taken[k]))].add((name, number, function))
    yield from shared({(crate, fact): sorted((name, number, function + ': ' + fact) for name, number, function in found) for (crate, fact), found in facts.items()}, 3,
        'a fact of %d')
    for (crate, parts), found in together.items():
        if len(found) > 2:
            yield min(found)[0], min(found)[1], 'together in %d' % len(found), parts


def point6():
    """Buffers with a count beside them, and arrays."""
    for name, number, function, signature, body in functions():
        taken = ' '.join(parameters(signature))
        if re.search(r'&(mut )?\[u8\].*\b(count|laid|at|offset): (usize|u32)|(count|laid): usize.*&(mut )?\[u8', taken):
            yield name, number, 'a buffer and a number', function
        for size in re.findall(r'\[\w+; \w+\]', taken):
            yield name, number, 'an array', function + ': ' + size


def point7():
    """Flags and kinds that pick what runs."""
    for name, number, function, signature, body in functions():
        for flag in re.findall(r'(\w+): bool', ' '.join(parameters(signature))):
            if re.search(r'\bif !?' + flag + r'\b', bare(body)):
                yield name, number, 'a flag picks', function + ': ' + flag


def main():
    wanted = [int(a) for a in sys.argv[1:]] or range(1, 8)
    for point in wanted:
        found = list(globals()['point%d' % point]())
        kinds = collections.Counter(re.sub(r' \d+$', '', kind) for _, _, kind, _ in found)
        print('point %d: %d places (%s)' % (point, len(found), ', '.join('%s: %d' % k for k in sorted(kinds.items()))))
        if sys.argv[1:]:
            for name, number, kind, text in found:
                print('  %s:%d: %s: %s' % (name[7:].replace('/src/', '/'), number, kind, text.strip()))


main()
