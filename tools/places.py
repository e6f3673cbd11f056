#!/usr/bin/env python3
"""Counts the places of docs/DESIGN-PASS.md in crates/*/src: `places.py POINT [DIR]`, with `-l` each place."""
import glob, re, sys

def functions(text):
    """The functions of a source file: name, comment, signature with clauses, body."""
    for m in re.finditer(r'((?:^ *//[^\n]*\n)*)((?:^ *#\[[^\n]*\]\n)*)^( *)(?:pub )?(?:extern "C" )?fn (\w+)', text, re.M):
        start = m.start(4)
        end = text.index('\n' + m.group(3) + '}', start) if '\n' + m.group(3) + '}' in text[start:] else len(text)
        opening = text.find('\n' + m.group(3) + '{', start, end)
        if opening < 0: opening = text.find('{\n', start, end)
        yield m.group(4), m.group(1), text[start:opening], text[opening:end], text.count('\n', 0, start) + 1

def parameters(signature):
    head = re.split(r'\n\s*(?:requires|ensures)\b', signature)[0]
    inner = head[head.index('(') + 1:]
    return len(re.findall(r'(?:^|[(,\s])(?:mut )?[a-z_]\w*: ', inner)) + (1 if re.search(r'&?(?:mut )?self\b', inner) else 0)

def skeleton(text):
    text = re.sub(r'//[^\n]*', '', text)
    text = re.sub(r'\b[A-Z][A-Z_0-9]+\b|\b\d+\b', 'K', text)
    text = re.sub(r'\b(u8|u16|u32|u64|usize)\b', 'T', text)
    return re.sub(r'\s+', ' ', text)

def places(point, sources):
    found, twins = [], {}
    for path, text in sources:
        lines = text.split('\n')
        if point == '1':
            for m in re.finditer(r'^(?:pub )?enum (\w+)[^{]*\{(.*?)^\}', text, re.M | re.S):
                cases = re.findall(r'^    (\w+)', m.group(2), re.M)
                if any(c in ('Refused', 'Cut', 'Bad', 'BadText', 'Fails', 'None', 'Nothing', 'Unknown') for c in cases):
                    found.append((path, 'enum ' + m.group(1)))
            for name, comment, sig, body, _ in functions(text):
                if re.search(r'\b(?:or|else|; ?|, )(?: ?)(?:0|256)\b(?! to)|\b(?:0|256) (?:where|past|of any|for any|none)|NO_\w+|the number of slots where|its length where|or the length', comment) and '->' in sig and 'bool' not in sig.split('->')[-1][:6]:
                    found.append((path, 'fn ' + name))
            for m in re.finditer(r'^//[^\n]*\b(kinds?|codes?|marks?|cases|refusal numbers|name a place|Where a text stands)\b[^\n]*\n(?:\n?(?://[^\n]*\n)*(?:pub )?const \w+: \w+ = \d+;\n?)+', text, re.M):
                found.append((path, 'numbers: ' + m.group(0).split('\n')[0][3:60]))
        elif point == '2':
            for name, comment, sig, body, _ in functions(text):
                if len(skeleton(body)) > 20:
                    params = re.split(r'\n\s*(?:requires|ensures)\b', sig)[0]
                    params = params[params.index('('):] if '(' in params else params
                    key = skeleton(params + body).replace(name, 'F')
                    twins.setdefault(key, []).append((path, 'fn ' + name))
        elif point == '3':
            found += [(path + ':%d' % (i + 1), l.strip()) for i, l in enumerate(lines) if re.match(r'\s*(while|loop)\b', l)]
        elif point == '4':
            for name, comment, sig, body, _ in functions(text):
                if re.match(r'(same_\w+|bytes_before|flat_\w+|sign_of|wide|wide16|put_decimal|put_hex\w*|put_named|put_pair|put_refused|digit|decimal|copy|signed_of|below_zero|from_zero|bits_of|magnitude|at_most)$', name):
                    found.append((path, 'fn ' + name))
        elif point == '5':
            for name, comment, sig, body, _ in functions(text):
                if parameters(sig) > 8:
                    found.append((path, 'fn %s (%d parameters)' % (name, parameters(sig))))
        elif point == '6':
            for name, comment, sig, body, _ in functions(text):
                if re.search(r'places: [^,]*, \w*lengths: |places: [^,]*,\s+\w*lengths: |cache: [^,]*,\s+cache_lengths: ', sig):
                    found.append((path, 'fn ' + name))
        elif point == '7':
            for name, comment, sig, body, _ in functions(text):
                if re.search(r'\b(question|verb|framing|code): ', sig) and re.search(r'\bif (question|code)\b|match (verb|framing|code)\b', body):
                    found.append((path, 'fn ' + name))
    if point == '2':
        for group in twins.values():
            if len(group) > 1: found.append((', '.join(sorted({p for p, _ in group})), ' = '.join(n for _, n in group)))
    return found

if __name__ == '__main__':
    args = [a for a in sys.argv[1:] if a != '-l']
    top = args[1] if len(args) > 1 else '.'
    sources = [(p, open(p).read()) for p in sorted(glob.glob(top + '/crates/*/src/*.rt'))]
    found = places(args[0], sources)
    if '-l' in sys.argv:
        for where, what in found: print(where.replace(top + '/', '').replace('crates/', '').replace('/src', ''), what)
    print(len(found))
