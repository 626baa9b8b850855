#!/usr/bin/env python3
"""Counts, per crate, the places in src/ of the eight points of docs/DESIGN-PASS.md.

    python3 tools/design/count.py                 the table, of the repository in the current folder
    python3 tools/design/count.py --list          besides, each place by file, line and what was found
    python3 tools/design/count.py --list 3 finder only point 3, only crate finder
    python3 tools/design/count.py --other         the same points counted in a second way, by plain text

Run at the top of the repository. A place is one line of the list; one function may be a place of several points.
What the patterns can't see (a twin under other words, a fact said in other words) has to be read for.
"""
import collections
import os
import re
import sys

FN = re.compile(r'^[ \t]*(?:#\[[^\n]*\]\s*)*(?P<vis>pub(?:\([a-z]+\))? )?(?:final |const |unsafe |extern "C" )*fn (?P<name>[a-z_0-9A-Z]+)', re.M)


def blank(m):
    return re.sub(r'[^\n]', ' ', m.group(0))


def code_only(text):
    """The text with comments and the insides of literals blanked, of the same length."""
    def lit(m):
        s = m.group(0)
        return s[0] + re.sub(r'[^\n]', ' ', s[1:-1]) + s[-1] if len(s) > 1 else s
    return re.sub(r'//[^\n]*|b?"(?:\\.|[^"\\])*"|b?\'(?:\\.|[^\'\\])\'',
                  lambda m: blank(m) if m.group(0).startswith('//') else lit(m), text, flags=re.S)


def matched(text, at, a, b):
    depth = 0
    for i in range(at, len(text)):
        if text[i] == a:
            depth += 1
        elif text[i] == b:
            depth -= 1
            if depth == 0:
                return i
    return len(text)


def split_top(text, sep):
    parts, depth, last = [], 0, 0
    for i, c in enumerate(text):
        if c in '([{<' and not (c == '<' and text[i:i + 2] in ('< ', '<=')):
            depth += 1
        elif c in ')]}>' and text[i - 1:i + 1] != '->':
            depth = max(0, depth - 1)
        elif depth == 0 and text.startswith(sep, i):
            parts.append(text[last:i])
            last = i + len(sep)
    parts.append(text[last:])
    return [p.strip() for p in parts if p.strip()]


class Fn:
    pass


def functions(code):
    out = []
    for m in FN.finditer(code):
        f = Fn()
        f.name, f.pub, f.at = m.group('name'), (m.group('vis') or '').strip(), m.start()
        i = code.find('(', m.end())
        j = matched(code, i, '(', ')')
        f.params = split_top(code[i + 1:j], ',')
        k, f.requires, f.ensures = j + 1, [], []
        head = re.compile(r'\s*(->\s*[^{};]*?(?=\s*(?:requires|ensures|where|\{|;|$))|where[^{};]*?(?=\s*(?:requires|ensures|\{))|(?:requires|ensures)\*?\s*[a-z_0-9]*\s*\{)', re.S)
        f.result = ''
        while True:
            h = head.match(code, k)
            if not h:
                break
            word = h.group(1)
            if word.startswith('->'):
                f.result = word[2:].strip()
                k = h.end()
            elif word.startswith('where'):
                k = h.end()
            else:
                e = matched(code, h.end() - 1, '{', '}')
                (f.requires if word.startswith('requires') else f.ensures).append(code[h.end():e].strip())
                k = e + 1
        b = code.find('{', k)
        if b < 0 or ';' in code[k:b]:
            f.body = ''
            f.end = k
        else:
            f.end = matched(code, b, '{', '}')
            f.body = code[b:f.end + 1]
            f.body_at = b
        out.append(f)
    return out


def pname(p):
    return re.sub(r'^(mut|ref)\s+', '', p.split(':')[0].strip()) if ':' in p else p.strip()


def ptype(p):
    return p.split(':', 1)[1].strip() if ':' in p else p.strip()


FAIL = {'Refused', 'Nothing', 'NotANumber', 'TooLong', 'Failed', 'Fault', 'Other', 'Broken'}
GOOD = {'Passed', 'Result', 'Unsolvable'}
KIND_CONST = re.compile(r'^[ \t]*pub(?:\([a-z]+\))? const ((?:KIND|MODE|PLANE|PAULI|INVALID|EXCESSIVE|INCONSISTENT)_[A-Z_]+|OUT_OF_ORDER|WRONG_SHAPE|NO_WORD|TOO_MANY|OWNER|OPERATOR|FIND|VERIFY|SOLVE|WRITE(?:_ANGLES)?|READ_OUT|ADD|EDIT|ORIGINAL|TWINS|APART|EDGES|INPUTS|OUTPUTS|[A-Z_]+): (u8|u16|u64|Refusal)\b', re.M)
NUMBER_PARAM = re.compile(r'^(m|mode|kind|name|measurement|plane|b|a|whole|half|role): (u8|u16)$')
FLAG = {'angled', 'listed', 'present', 'here', 'odd', 'wide', 'signals', 'taken', 'yes', 'put', 'so'}
SWITCH = {'pauli', 'stop', 'questions', 'others', 'lower', 'edge', 'angled'}
BY_HAND = re.compile(r'^(same|same_bytes|same_layers|holds|matches|wanted|number|wide|as_word|digit|put_decimal|put_number|put_first|put_letter|put_filled|put_more|put_bytes|put_byte|copy|clear|clear_table|clear_layers|load_bytes|byte_at|byte|at|layer_at|pair_at|put|least|most|minus|over|rest|front|is_digit|is_blank|is_either|is_plane|length_field|kind_field|two_bytes|four_bytes|eight_bytes|word_at|bits_at|put_word|put_pair|add_word|in_row|entry|refusal_code|reply_code|solved_code|answered|wrote|refused|has_bit|byte_mask|put_measurement|tell_words|job_read|flow_read|place_of|end_of|start)$')
TABLE = re.compile(r'&(?:mut )?\[u64\]')
WHILE = re.compile(r'\b(while|loop)\b[^\n{]*')


def normal(body):
    names = {}

    def rename(m):
        w = m.group(0)
        if w in ('while', 'if', 'else', 'return', 'let', 'mut', 'match', 'loop', 'for', 'in', 'true', 'false', 'as', 'len', 'u8', 'u16', 'u64', 'usize'):
            return 'T' if w in ('u8', 'u16', 'u64', 'usize') else w
        return names.setdefault(w, 'v%d' % len(names))
    return re.sub(r'\s+', ' ', re.sub(r'[A-Za-z_][A-Za-z_0-9]*', rename, re.sub(r'\b\d[\dxA-Fa-f_]*', '0', body)))


def fact_shape(fact):
    fact = re.sub(r'\s+', ' ', fact.strip())
    fact = re.sub(r'^\((.*)\)$', r'\1', fact) if fact.count('(') == fact.count(')') and matched(fact, 0, '(', ')') == len(fact) - 1 else fact
    fact = re.sub(r'\b[a-z_]+(?=\.(now|old|new)\b)', '_', fact)
    fact = re.sub(r'\b(n|i|u|v|c|row|rows|cols|col|asked|rank|from|at)\b', '_', fact)
    return fact


def scan(root):
    crates = sorted(d for d in os.listdir(os.path.join(root, 'crates')) if os.path.isdir(os.path.join(root, 'crates', d, 'src')))
    found = []   # (point, crate, file, line, what)
    bodies = collections.defaultdict(list)
    named = collections.defaultdict(list)
    facts = collections.defaultdict(list)
    groups = collections.defaultdict(list)
    for crate in crates:
        src = os.path.join(root, 'crates', crate, 'src')
        for base, _, files in os.walk(src):
            for name in sorted(files):
                if not name.endswith('.rt'):
                    continue
                path = os.path.join(base, name)
                rel = os.path.relpath(path, os.path.join(root, 'crates'))
                text = open(path, encoding='utf-8').read()
                code = code_only(text)

                def put(point, at, what):
                    found.append((point, crate, rel, code.count('\n', 0, at) + 1, what))
                for m in re.finditer(r'\benum (\w+)[^{]*\{', code):
                    inside = code[m.end():matched(code, m.end() - 1, '{', '}')]
                    variants = [re.match(r'\w+', v).group(0) for v in split_top(inside, ',') if re.match(r'\w+', v)]
                    if set(variants) & FAIL and len(variants) <= 5:
                        put(1, m.start(), 'own Option or Result: enum %s { %s }' % (m.group(1), ', '.join(variants)))
                for m in KIND_CONST.finditer(code):
                    if m.group(2) == 'Refusal' or not re.search(r'(BYTES|ROOM|UNIT|BITS|FILL|COUNT|LIMIT)$', m.group(1)):
                        put(1, m.start(), 'number for a kind: const %s: %s' % m.group(1, 2))
                for m in re.finditer(r'^[ \t]*const (OUT_OF_ORDER|MODE|NO_BRANCH|TOO_LONG|NO_RECORD|CUT_PAYLOAD|WRONG_SIGNALS|ORDER|PLANE|RESULT_TOO_LONG|FIRST_MEASUREMENT): u(8|64)', code, re.M):
                    put(1, m.start(), 'number for a kind: const %s' % m.group(1))
                for m in re.finditer(r'\b(\w+)::(Refused|Nothing|TooLong|Failed|Fault|NotANumber)\b(?:\((\w*)\))?\s*=>\s*(?:\{?\s*(?:return )?\w+::(?:Refused|Nothing|Failed|Fault|TooLong)|return)|let (\w+)::(Passed|Byte|Bytes) ?(?:\(\w+\))? = \w+[^;]*? else', code):
                    put(1, m.start(), '`?` written out: ' + re.sub(r'\s+', ' ', m.group(0))[:60])
                for m in re.finditer(r'^[ \t]*(?:pub(?:\([a-z]+\))? )?(\w+): bool,', code, re.M):
                    if m.group(1) in FLAG:
                        put(1, m.start(), 'flag with a value beside it: field %s' % m.group(1))
                for m in re.finditer(r'#\[derive\(Drop\)\]\s*\n?\s*(?:pub(?:\([a-z]+\))? )?(struct|enum) (\w+)', code):
                    put(4, m.start(), 'no derives but Drop: %s %s' % m.group(1, 2))
                for m in re.finditer(r'\bas (u8|u16|u64|usize|i32)\b', code):
                    put(4, m.start(), 'cast as %s' % m.group(1))
                for f in functions(code):
                    ps = [(pname(p), ptype(p)) for p in f.params]
                    for p, t in ps:
                        if NUMBER_PARAM.match('%s: %s' % (p, t)) and not (p == 'b' and crate in ('answers', 'texts')) and p not in ('a',):
                            put(1, f.at, 'number for a kind: %s(%s: %s)' % (f.name, p, t))
                        if t == 'bool' and p in FLAG:
                            put(1, f.at, 'flag with a value beside it: %s(%s: bool)' % (f.name, p))
                        if p in SWITCH and t in ('bool', 'Stop', 'Questions') or p == 'mode' and t == 'u8':
                            put(7, f.at, 'switch passed on: %s(%s: %s)' % (f.name, p, t))
                    if BY_HAND.match(f.name):
                        put(4, f.at, 'by hand: fn %s' % f.name)
                    named[f.name].append((crate, rel, code.count('\n', 0, f.at) + 1, f.name))
                    if f.body:
                        n = normal(f.body)
                        if len(n) > 60:
                            bodies[n].append((crate, rel, code.count('\n', 0, f.at) + 1, f.name))
                        for m in WHILE.finditer(f.body):
                            put(3, f.body_at + m.start(), '%s in %s: %s' % (m.group(1), f.name, m.group(0).strip()[:50]))
                    for r in f.requires:
                        for fact in split_top(r, '×'):
                            facts[fact_shape(fact)].append((crate, rel, code.count('\n', 0, f.at) + 1, f.name))
                    if len(ps) >= 6:
                        put(5, f.at, '%d parameters: %s' % (len(ps), f.name))
                    names = [p for p, t in ps if '[' in t or t in ('NodeSet', 'Place', 'JobPlaces', 'FlowPlaces', 'Known', 'Context', 'Echelon', 'Shape', 'Loaded')]
                    for a in range(len(names)):
                        for b in range(a + 1, len(names)):
                            groups[(crate, names[a], names[b])].append((rel, code.count('\n', 0, f.at) + 1, f.name))
                    if any(TABLE.search(t) for p, t in ps):
                        put(6, f.at, 'table as words: %s' % f.name)
                    d = dict(ps)
                    if '&mut [' in d.get('out', '') and 'at' in d:
                        put(6, f.at, 'buffer with a place beside it: %s(out, at)' % f.name)
                    if '&[u8]' in d.get('file', '') and any(t in ('Place', 'JobPlaces', 'FlowPlaces') for p, t in ps):
                        put(6, f.at, 'file with places beside it: %s' % f.name)
                    if any(p in ('bytes', 'text', 'sets', 'numbers') and '[' in t for p, t in ps) and any(p in ('from', 'start', 'at') and t == 'usize' for p, t in ps):
                        put(6, f.at, 'bytes with a place beside them: %s' % f.name)
                for m in re.finditer(r'\[0u(8|16|64); (\w+)\]', code):
                    put(6, m.start(), 'buffer: %s' % m.group(0))
                for m in re.finditer(r'\bmatch (kind|questions|stop|mode|measurement|two_bytes)\b[^\n]*', code):
                    put(7, m.start(), 'switch: %s' % m.group(0).strip(' {'))
    for n, places in bodies.items():
        if len(places) > 1:
            for crate, rel, line, name in places:
                others = ', '.join(sorted(set('%s:%s' % (q[1], q[3]) for q in places if q[2:] != (line, name))))
                found.append((2, crate, rel, line, 'twin: %s beside %s' % (name, others[:90])))
    shaped = set((rel, name) for p, c, rel, line, what in found if p == 2 for name in [what.split()[1]])
    for name, places in named.items():
        if name not in ('main', 'new', 'fmt', 'next', 'iter', 'from', 'try_from') and len(set(p[1] for p in places)) > 1:
            for crate, rel, line, _ in places:
                if (rel, name) not in shaped:
                    found.append((2, crate, rel, line, 'one name in %d files: %s' % (len(places), name)))
    for shape, places in facts.items():
        if len(set((p[1], p[3]) for p in places)) >= 3:
            for crate, rel, line, name in places:
                found.append((5, crate, rel, line, 'fact in %d functions, %s: %s' % (len(places), name, shape[:60])))
    for (crate, a, b), places in groups.items():
        if len(places) >= 4:
            found.append((5, crate, places[0][0], places[0][1], '%s and %s go together in %d functions' % (a, b, len(places))))
    return crates, found


def proofs(root, crate):
    """Point 8: proof files, answers that `search` alone may find, whole walks."""
    base = os.path.join(root, 'crates', crate, 'proofs')
    walks = answers = plain = lines = 0
    for d, _, files in os.walk(base):
        for f in files:
            if f.endswith('.antt'):
                text = open(os.path.join(d, f), encoding='utf-8').read()
                lines += text.count('\n')
                walks += f == 'Proof.antt'
                answers += f == 'Answers.antt'
                plain += len(re.findall(r'= *search *(?:rules|needs|\(\))? *$', text, re.M))
    return walks, answers, plain, lines


def other(root, crates):
    """A second way: plain text, with no parsing of functions."""
    print('crate           1:Refused/Nothing 1:const  3:while|loop 3:"+= 1;" 4:derive(Drop) 4:" as " 5:requires 6:[u64] 6:"at: usize" 7:bool,')
    for c in crates:
        text = ''
        for base, _, files in os.walk(os.path.join(root, 'crates', c, 'src')):
            for f in files:
                if f.endswith('.rt'):
                    text += open(os.path.join(base, f), encoding='utf-8').read()
        count = lambda p: len(re.findall(p, text, re.M))
        print('%-16s%16d%8d%14d%11d%15d%9d%11d%8d%13d%8d' % (
            c, count(r'::(Refused|Nothing|TooLong|Fault|Failed|Passed)\b'), count(r'const [A-Z_]+: (u8|u16|u64|Refusal)\b'),
            count(r'^\s*(while|loop)\b'), count(r'\+= 1;'), count(r'derive\(Drop\)'), count(r'\bas (u8|u16|u64|usize)\b'),
            count(r'^\s*requires\b'), count(r'\[u64\]'), count(r'\bat: usize'), count(r': bool,')))


def main():
    args = [a for a in sys.argv[1:] if not a.startswith('--')]
    root = '.'
    crates, found = scan(root)
    if '--other' in sys.argv:
        other(root, crates)
        return
    table = collections.Counter((c, p) for p, c, _, _, _ in found)
    print('%-14s' % 'crate' + ''.join('%7d' % p for p in range(1, 8)) + '   8: Proof.antt, Answers.antt, bare search, lines')
    total = collections.Counter()
    for c in crates:
        eight = proofs(root, c)
        for p in range(1, 8):
            total[p] += table[(c, p)]
        print('%-14s' % c + ''.join('%7d' % table[(c, p)] for p in range(1, 8)) + '   %d, %d, %d, %d' % eight)
    print('%-14s' % 'all' + ''.join('%7d' % total[p] for p in range(1, 8)))
    if '--list' in sys.argv:
        points = [int(a) for a in args if a.isdigit()] or range(1, 8)
        only = [a for a in args if not a.isdigit()]
        for p, c, rel, line, what in sorted(found):
            if p in points and (not only or c in only):
                print('%d  %s:%d  %s' % (p, rel, line, what))


main()
