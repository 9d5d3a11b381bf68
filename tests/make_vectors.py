#!/usr/bin/env python3
"""Writes crates/vectors/data and crates/vectors/stdout: records, sound and damaged, and what documents 01 and 02 say of each; files of records, walked
(w); typed numbers (t); records in plain words (s); Newick texts to records (n), and records to Newick texts (o). Then crates/newick_figures/data/texts0
and its stdout: Newick texts, a line each, and what is read from them.

Everything here is worked out from the documents and shares nothing with the crates: lists of up to 7 taxa by brute force over every split and every four,
the large ones in closed form (taxa that hang one after the other on a line have all 2n-3 splits; zeros have none)."""
import itertools, math, os, random, re, struct

HERE = os.path.dirname(os.path.abspath(__file__))
OUT = os.path.join(HERE, '..', 'crates', 'vectors')

def record(kind, n, body, mark=b'Sp', length=None, pad=b'\0', off=0):
    b = mark + bytes([kind, n]) + struct.pack('<I', len(body) if length is None else length) + body
    if len(body) % 2:
        b += pad
    total = sum(struct.unpack('<%dH' % (len(b) // 2), b)) & 0xffff
    return b + struct.pack('<H', (off - total) & 0xffff)

def matrix(rows):
    return b''.join(struct.pack('<I', x) for r in rows for x in r)

def groups(c, k):
    return [i for i in range(k) if not c >> i & 1], [i for i in range(k) if c >> i & 1]

def with_repeats(group):  # the rule before document 02 §7
    return [(a, b) for a in group for b in group]

def different(group):  # document 02 §7: a group of two or more gives only pairs of different taxa
    return list(itertools.combinations(group, 2)) or [(group[0], group[0])]

def supported_matrix(d, k, pairs=different):
    out = []
    for c in range(2, 2 ** k, 2):
        u, v = groups(c, k)
        w = min(min(d[a][x] + d[b][y], d[a][y] + d[b][x]) - d[a][b] - d[x][y] for a, b in pairs(u) for x, y in pairs(v))
        if w > 0:
            out.append((c, w))
    return out

def trivial(c, k):
    return min(len(g) for g in groups(c, k)) == 1

def extended(rows, k):  # document 02 §7: every trivial split of k taxa, listed or not, and each listed one that is not trivial
    return sum(trivial(c, k) for c in range(2, 2 ** k, 2)) + sum(not trivial(c, k) for c, w in rows)

def keeps_triangle(d):
    return all(d[i][j] <= d[i][l] + d[l][j] for i, j, l in itertools.product(range(len(d)), repeat=3))

def supported_table(t, k):
    def stands(a, b, x, y):
        s = sorted((a, b, x, y))
        byte = t[s[0] + math.comb(s[1], 2) + math.comb(s[2], 3) + math.comb(s[3], 4)]
        pairs = {frozenset((a, b)), frozenset((x, y))}
        return byte and pairs == {frozenset((s[0], s[byte])), frozenset(set(s) - {s[0], s[byte]})}
    out = []
    for c in range(2, 2 ** k, 2):
        u, v = groups(c, k)
        if all(stands(a, b, x, y) for a, b in itertools.combinations(u, 2) for x, y in itertools.combinations(v, 2)):
            out.append((c, 1))
    return out

def listing(n, rows, trials):
    return 'taxa %d trials %d\n' % (n, trials) + ''.join('%d %d\n' % r for r in rows)

def run_table(t, n):
    return listing(n, supported_table(t, n), sum(2 * len(supported_table(t, k)) + 1 for k in range(1, n)))

def run_matrix(d):
    n = len(d)
    return listing(n, supported_matrix(d, n), sum(2 * extended(supported_matrix(d, k), k) + 1 for k in range(1, n)))

def line(n, single, inner):  # taxa one after the other: every taxon by itself, and every cut of the line
    rows = {1 << i: single(i) for i in range(1, n)}
    for i in range(n - 1):
        rows.setdefault(sum(1 << j for j in range(i + 1, n)), single(0) if i == 0 else inner)
    return listing(n, sorted(rows.items()), 2 * n * n - 7 * n + 7)

A = [[0, 5, 9, 10], [5, 0, 10, 11], [9, 10, 0, 9], [10, 11, 9, 0]]
def with_entry(i, j, x):
    m = [list(r) for r in A]
    m[i][j] = x
    return m

cases = []
def add(what, bytes_, says):
    cases.append((what, bytes_, says))

a = record(1, 4, matrix(A))
add('matrix A', a, run_matrix(A))
add('what follows the first record is ignored', a + b'more', run_matrix(A))
add('two taxa at distance 0', record(1, 2, matrix([[0, 0], [0, 0]])), listing(2, [], 1))
add('two taxa at the largest distance', record(1, 2, matrix([[0, 1000000], [1000000, 0]])), listing(2, [(2, 2000000)], 1))
comb = [[0 if i == j else abs(i - j) + 2 for j in range(64)] for i in range(64)]
add('64 taxa on a line', record(1, 64, matrix(comb)), line(64, lambda i: 4 if i in (0, 63) else 2, 2))
add('a table of 3 taxa: no byte', record(2, 3, b''), listing(3, [(2, 1), (4, 1), (6, 1)], 4))
add('a table of 4 taxa: one byte and a pad', record(2, 4, b'\2'), run_table(b'\2', 4))
rng = random.Random(1)
for n in (5, 6, 7):
    t = bytes(rng.choice((0, 1, 1, 1, 2, 3)) for _ in range(math.comb(n, 4)))
    add('a table of %d taxa' % n, record(2, n, t), run_table(t, n))
    d = [[0] * n for _ in range(n)]
    for i, j in itertools.combinations(range(n), 2):
        d[i][j] = d[j][i] = rng.randrange(40, 60)
    add('a matrix of %d taxa' % n, record(1, n, matrix(d)), run_matrix(d))
add('a table of 36 taxa on a line, the most for a program', record(2, 36, b'\1' * math.comb(36, 4)), line(36, lambda i: 1, 1))
add('a table of 37 taxa is cut', record(2, 37, b'\1' * math.comb(37, 4)), 'refused 16 at 0\n')
add('n = 1', record(1, 1, matrix([[0]])), 'refused 1 at 0\n')
add('n = 65', record(2, 65, b''), 'refused 1 at 0\n')
add('2: a length that does not match n', record(1, 4, matrix(A)[:-4]), 'refused 2 at 0\n')
add('2 comes before the second 16', record(1, 4, matrix(A), length=65)[:20], 'refused 2 at 0\n')
add('3: diagonal not 0, at entry 10', record(1, 4, matrix(with_entry(2, 2, 1))), 'refused 3 at 10\n')
add('4: a distance above 1,000,000, at entry 3', record(1, 4, matrix(with_entry(0, 3, 1000001))), 'refused 4 at 3\n')
add('5: a pair differs, at the one of lower index', record(1, 4, matrix(with_entry(3, 1, 12))), 'refused 5 at 7\n')
add('6: a table byte above 3', record(2, 5, b'\1\1\1\4\1'), 'refused 6 at 3\n')
add('15: wrong mark', record(1, 4, matrix(A), mark=b'SP'), 'refused 15 at 0\n')
add('16: no byte', b'', 'refused 16 at 0\n')
add('16: seven bytes, before 15', b'XXXXXXX', 'refused 16 at 0\n')
add('16: the last byte is cut off', a[:-1], 'refused 16 at 0\n')
add('17: unknown kind', record(9, 4, matrix(A)), 'refused 17 at 0\n')
tree = bytes([1, 1, 1, 0]) + struct.pack('<I', 2)
add('17: a tree record, which is not taken', record(3, 2, tree), 'refused 17 at 0\n')
add('18 before 17: a tree record with a wrong sum', record(3, 2, tree, off=1), 'refused 18 at 0\n')
add('18: wrong sum', record(1, 4, matrix(A), off=1), 'refused 18 at 0\n')
add('18: pad not zero', record(2, 4, b'\2', pad=b'\1'), 'refused 18 at 0\n')

# matrices that break the triangle rule, where the rule before document 02 §7 lists less. Both are of the documents
def symmetric(n, below):  # from d(1,0), d(2,0), d(2,1), ..
    d = [[0] * n for _ in range(n)]
    for (i, j), x in zip(((i, j) for i in range(n) for j in range(i)), below):
        d[i][j] = d[j][i] = x
    return d

three, four = symmetric(3, [1, 1, 3]), symmetric(4, [1, 1, 10, 1, 10, 3])
assert supported_matrix(three, 3) == [(2, 3), (4, 3)] and (12, 7) in supported_matrix(four, 4)
assert 12 not in dict(supported_matrix(four, 4, with_repeats))
add('document 02 §7: three taxa, weights 3 and 3', record(1, 3, matrix(three)), run_matrix(three))
add('document 02 §7: four taxa, cluster 12 at weight 7', record(1, 4, matrix(four)), run_matrix(four))
add('all zeros at 64 taxa', record(1, 64, bytes(4 * 64 * 64)), listing(64, [], 4091))

# and tree-made ones in which markers drop out: some distances fall
def dropped(n):
    while True:
        at = [rng.randrange(200) for _ in range(n)]
        d = symmetric(n, [abs(at[i] - at[j]) + 40 for i in range(n) for j in range(i)])
        for _ in range(2):
            i, j = rng.sample(range(n), 2)
            d[i][j] = d[j][i] = d[i][j] // 3
        rows = supported_matrix(d, n)
        larger = [c for c, w in rows if not trivial(c, n)]
        unbound = any(w > dict(rows).get(1 << i, 0) for c, w in rows if not trivial(c, n) for i in range(1, n) if c >> i & 1)
        if not keeps_triangle(d) and unbound and set(larger) - set(dict(supported_matrix(d, n, with_repeats))):
            return d

for n in (4, 5, 6, 7):
    d = dropped(n)
    add('a matrix of %d taxa that breaks the triangle rule' % n, record(1, n, matrix(d)), run_matrix(d))

# files of records, walked: sound, odd body, damaged, and one behind the damaged one, which is not reached; one record; no byte
parts = [a, record(2, 4, b'\2'), record(1, 4, matrix(A), off=7), a]
walked, at = '', 0
for p in parts[:2]:
    length = struct.unpack('<I', p[4:8])[0]
    walked += 'body at %d, %d bytes\n' % (at + 8, length)
    at += len(p)
walks = [(b''.join(parts), walked + 'refused 18 at 0\n'), (a, 'body at 8, 64 bytes\nend\n'), (b'', 'end\n')]

# typed numbers: the record of the matrix, or what is wrong with its line and column
texts = [
    (b'4\n5\n9 10\n10 11 9\n', a),
    (b'4\r\n0\t5 9 10\r\n5 0 10 11\r\n9 10 0 9\r\n 10 11 9 0', a),
    (b'2 1000000', record(1, 2, matrix([[0, 1000000], [1000000, 0]]))),
    (b'4\n0 5 9 10\n5 x 10 11\n', "line 3, column 3: 'x' is no digit\n"),
    (b'2\n-1\n', "line 2, column 1: '-' is no digit\n"),
    (b'3\n1 2\n3 \xc3\xa9\n', 'line 3, column 3: byte 195 is no digit\n'),
    (b'2 4294967296', 'line 1, column 3: number above 4,294,967,295\n'),
    (b'2 99999999999999999999999999', 'line 1, column 3: number above 4,294,967,295\n'),
    (b'2 4294967295', 'line 1, column 3: distance above 1,000,000\n'),
    (b'', 'line 1, column 1: no number of taxa\n'),
    (b'\n \n', 'line 3, column 1: no number of taxa\n'),
    (b'1\n0\n', 'line 1, column 1: number of taxa not from 2 to 64\n'),
    (b' 65', 'line 1, column 2: number of taxa not from 2 to 64\n'),
    (b'4\n5\n9 10\n10 11\n', 'line 5, column 1: 5 distances for 4 taxa: a full matrix has 16, a lower half 6\n'),
    (b'2\n0 1\n1 0 7\n', 'line 3, column 5: 5 distances for 2 taxa: a full matrix has 4, a lower half 1\n'),
    (b'2\n0 1\n1 3\n', 'line 3, column 3: diagonal not 0\n'),
    (b'3\n5\n9 1000001\n', 'line 3, column 3: distance above 1,000,000\n'),
    (b'2\n0 1\n2 0\n', 'line 2, column 3: the two entries of a pair differ\n'),
    (b'2\n0 1000001\n1 0\n', 'line 2, column 3: distance above 1,000,000\n'),
]

# records in plain words; a tree body is m, links, homes, weights
def tree_record(n, m, links, homes, weights):
    return record(3, n, bytes([m] + links + homes) + b''.join(struct.pack('<I', w) for w in weights))

shown = [
    (a, 'matrix of 4 taxa: accepted\n'),
    (record(1, 4, matrix(with_entry(2, 2, 1))), 'matrix of 4 taxa: refused 3 at 10: a diagonal entry is not 0\n'),
    (record(1, 4, matrix(with_entry(0, 3, 1000001))), 'matrix of 4 taxa: refused 4 at 3: a distance is above 1,000,000\n'),
    (record(1, 4, matrix(with_entry(3, 1, 12))), 'matrix of 4 taxa: refused 5 at 7: the two entries of a pair differ\n'),
    (record(2, 4, b'\2'), 'table of fours of 4 taxa: accepted\n'),
    (record(2, 5, b'\1\1\1\4\1'), 'table of fours of 5 taxa: refused 6 at 3: a table byte is above 3\n'),
    (tree_record(4, 3, [2, 2, 3], [3, 2, 0, 1], [8, 10, 4]),
     'tree of 4 taxa: accepted\ngroup 2, weight 8\ngroup 3, weight 10\ngroup 1 2 3, weight 4\n'),
    (tree_record(2, 0, [], [0, 0], []), 'tree of 2 taxa: accepted\n'),
    (tree_record(2, 1, [2], [1, 0], [2]), 'tree of 2 taxa: refused 9 at 0: a link or home is above m, or m disagrees with the length\n'),
    (tree_record(3, 2, [1, 0], [2, 0, 1], [1, 1]), 'tree of 3 taxa: refused 10 at 0: the walk up from this vertex never reaches the root\n'),
    (tree_record(2, 1, [1], [0, 1], [2]), 'tree of 2 taxa: refused 11 at 0: taxon 0 is not at home at the root\n'),
    (tree_record(2, 1, [1], [1, 1], [2]), 'tree of 2 taxa: refused 12 at 0: an edge has no taxon beyond it\n'),
    (tree_record(3, 2, [1, 2], [2, 0, 0], [2, 2]), 'tree of 3 taxa: refused 13 at 0: two edges have the same taxa beyond them\n'),
    (tree_record(2, 1, [1], [1, 0], [0]), 'tree of 2 taxa: refused 14 at 0: a weight is 0 or above 2,000,000\n'),
    (record(1, 1, matrix([[0]])), 'no record: refused 1 at 0: the number of taxa is not from 2 to 64\n'),
    (record(1, 4, matrix(A)[:-4]), 'no record: refused 2 at 0: the length does not match the number of taxa\n'),
    (record(1, 4, matrix(A), mark=b'SP'), 'no record: refused 15 at 0: the mark is not that of a record\n'),
    (a[:-1], 'no record: refused 16 at 0: the record is cut\n'),
    (record(9, 4, matrix(A)), 'no record: refused 17 at 0: the kind is not known\n'),
    (record(1, 4, matrix(A), off=1), 'no record: refused 18 at 0: the pad is not zero, or the words do not add to zero\n'),
]

# Newick texts (document 02 §2). The tree of a list: the link of a row is the smallest cluster that strictly contains its own, a taxon's home the smallest
# that contains it, else the root
def newick(n, rows):
    def smallest(fits):
        return min((c for c, w in rows if fits(c)), default=None)  # of nested clusters the smallest is the lowest number
    links = {c: smallest(lambda d: d != c and d & c == c) for c, w in rows}
    homes = [smallest(lambda d: d >> i & 1) for i in range(n)]
    def vertex(v):
        taxa = [i for i in range(n) if homes[i] == v]
        children = [(c, w) for c, w in rows if links[c] == v]
        if v is not None and len(taxa) == 1 and not children:
            return str(taxa[0])
        return '(' + ','.join(['%d:0' % i for i in taxa] + ['%s:%d' % (vertex(c), w) for c, w in children]) + ')'
    return vertex(None) + ';'

def described(n, rows):
    return 'tree of %d taxa: accepted\n' % n + ''.join('group %s, weight %d\n' % (' '.join(str(i) for i in groups(c, n)[1]), w) for c, w in rows)

listA = [(2, 6), (4, 8), (8, 10), (12, 6), (14, 4)]
textA = '(0:0,(1:6,(2:8,3:10):6):4);'
assert newick(4, listA) == textA
deepest = sorted([(1 << i, 2000000) for i in range(1, 64)] + [(sum(1 << j for j in range(i, 64)), 1999999) for i in range(1, 63)])
assert len(deepest) == 125 and len(newick(64, deepest)) == 1310

ends = 'the text ends before its semicolon'
names = 'no names are taken: a taxon is its number'
spaces = 'no spaces are taken'
quotes = 'no quotes are taken: a taxon is its number'
zero = 'a number has no leading zero'
length = 'a length is missing: a colon and a whole number'
alike = 'two edges part the taxa alike: '
root = (alike + 'the root has two branches. Give one of them the sum of both lengths and put the children of the other at the root (or give the other 0): '
        '((0:1,1:2):3,(2:4,3:5):6); becomes (0:1,1:2,(2:4,3:5):9);')
one = alike + 'make one edge of them with the sum of both lengths'
bare = 'no taxon lies beyond this edge: take the brackets and the length around the whole away'

# what is accepted: n, the text, the list
taken = [
    (4, textA, listA),
    (4, textA + '\nand more', listA),
    (4, '(3:10,2:8,(0:4,1:6):6);', listA),  # rooted elsewhere
    (4, '((0:1,1:2):0,(2:4,3:5):9);', [(2, 2), (4, 4), (8, 5), (12, 9), (14, 1)]),  # what the advice at 13 comes to, both ways
    (4, '(0:1,1:2,(2:4,3:5):9);', [(2, 2), (4, 4), (8, 5), (12, 9), (14, 1)]),
    (2, '(0:0,1:0);', []),
    (2, '(0:2000000,1:0);', [(2, 2000000)]),
    (3, '((0:0,1:0):7,2:0);', [(4, 7)]),
    (64, newick(64, deepest), deepest),
]

# what is refused: n, the text with a ^ before the byte at the refusal's place, the number, the reason
wrong = [
    (4, '^', 19, ends),
    (4, '(0:1,1:2^', 19, ends),
    (4, '(0:1,1:2)^\n', 19, ends),
    (4, '(0:1,1:2)^\n;', 19, spaces),
    (4, '(0:1,^ 1:2);', 19, spaces),
    (4, '(0:1,^\t1:2);', 19, spaces),
    (4, "(^'a':1,1:2);", 19, quotes),
    (4, '(^"a":1,1:2);', 19, quotes),
    (4, '(^human:1,1:2);', 19, names),
    (4, '(0:1,1:2)^_root;', 19, names),
    (4, '(0:1^e5,1:2);', 19, 'a number has digits only'),
    (4, '(0:0^.5,1:2);', 19, 'a length is a whole number'),
    (4, '(0:^-5,1:2);', 19, 'no sign is taken: a length is 0 or above'),
    (4, '(0:^+5,1:2);', 19, 'no sign is taken: a length is 0 or above'),
    (4, '^[c](0:1,1:2);', 19, 'no comments are taken'),
    (4, '(' * 130 + '^(0:1' + '):1' * 130 + ');', 19, 'brackets are nested more than 130 deep'),
    (4, '(0:1^(', 19, "'(' cannot stand here"),
    (4, '(0^1:1,1:2);', 19, zero),
    (4, '(0:0^0,1:2);', 19, zero),
    (4, '(0^,1:2);', 19, length),
    (4, '((0:1,1:2)^,2:3,3:4);', 19, length),
    (4, '(0:1,1:^);', 19, length),
    (4, '((0:1,1:2)^95:3,2:4);', 19, 'no number is taken right behind a bracket'),
    (4, '(0:1,1:2)^:3;', 19, 'no length is taken around the whole: a semicolon ends the text'),
    (4, '(0:1,1:2^;', 19, 'a bracket is still open'),
    (4, '(0:1,1:2)^);', 19, "')' cannot stand here"),
    (4, '^5;', 19, "'5' cannot stand here"),
    (4, '(0:1,^\xe9', 19, 'byte 195 cannot stand here'),
    (4, '(0:1,1:2,3:4)^;', 20, 'taxon 2 is missing: a text has each taxon once, from 0 to 3'),
    (4, '(0:1,1:2,^0:3,9:4);', 20, 'this taxon came before'),
    (4, '(0:1,1:2,^4:3,3:4);', 20, 'this taxon is not below 4'),
    (4, '(0:1,1:2,^18446744073709551616:3,3:4);', 20, 'this taxon is not below 4'),
    (4, '(0:1,1:^2000001,2:3,3:4);', 14, 'this length is above 2,000,000'),
    (3, '((0:1,1:2,2:3):^5);', 12, bare),
    (4, '((0:1,1:2):^3,(2:4,3:5):6);', 13, root),
    (2, '(0:^5,1:3);', 13, root),
    (4, '(0:0,((1:2,2:3):^4):5,3:6);', 13, one),
    (4, '(0:0,((1:2,2:3,3:6):^4):5);', 13, one),
]
read = [('%d\n%s' % (n, text), described(n, rows)) for n, text, rows in taken]
for n, text, number, reason in wrong:
    place = len(text[:text.index('^')].encode())
    read.append(('%d\n%s' % (n, text.replace('^', '')), 'refused %d at %d: %s\n' % (number, place, reason)))
read.append(('4 more\n(0:1', 'refused 19 at 4: the text goes on behind 65,536 bytes\n'))
read = [(text.encode(), says) for text, says in read]

# records to texts
fives = b'\1\1\1\1\1'
told = [
    (a, textA + '\n'),
    (a + b'more', textA + '\n'),
    (record(1, 2, matrix([[0, 0], [0, 0]])), '(0:0,1:0);\n'),
    (record(1, 2, matrix([[0, 1000000], [1000000, 0]])), '(0:0,1:2000000);\n'),
    (record(2, 5, fives), newick(5, supported_table(fives, 5)) + '\n'),
    (record(2, 3, b''), '(0:0,(1:1,2:1):1);\n'),
    (tree_record(4, 3, [2, 2, 3], [3, 2, 0, 1], [8, 10, 4]), '(0:0,(1:0,2:8,3:10):4);\n'),
    (tree_record(4, 3, [3, 0, 0], [3, 0, 1, 2], [4, 8, 10]), '(0:0,(1:0,2:8,3:10):4);\n'),  # the same, numbered freely
    (tree_record(4, 1, [1], [1, 0, 0, 1], [7]), '(0:0,3:0,(1:0,2:0):7);\n'),
    (tree_record(2, 0, [], [0, 0], []), '(0:0,1:0);\n'),
    (record(1, 64, bytes(4 * 64 * 64)), newick(64, []) + '\n'),
    (record(1, 4, matrix(with_entry(3, 1, 12))), 'refused 5 at 7: the two entries of a pair differ\n'),
    (record(1, 4, matrix(with_entry(0, 3, 1000001))), 'refused 4 at 3: a distance is above 1,000,000\n'),
    (record(2, 5, b'\1\1\1\4\1'), 'refused 6 at 3: a table byte is above 3\n'),
    (tree_record(3, 2, [1, 0], [2, 0, 1], [1, 1]), 'refused 10 at 0: the walk up from this vertex never reaches the root\n'),
    (b'', 'refused 16 at 0: the record is cut\n'),
    (textA.encode(), 'refused 15 at 0: the mark is not that of a record\n'),
    (record(9, 4, matrix(A)), 'refused 17 at 0: the kind is not known\n'),
    (record(1, 65, b''), 'refused 1 at 0: the number of taxa is not from 2 to 64\n'),
    (record(1, 4, matrix(A), off=1), 'refused 18 at 0: the pad is not zero, or the words do not add to zero\n'),
]

os.makedirs(os.path.join(OUT, 'data'), exist_ok=True)
for f in os.listdir(os.path.join(OUT, 'data')):
    os.remove(os.path.join(OUT, 'data', f))
files = [('v', [(b, says) for what, b, says in cases]), ('w', walks), ('t', texts), ('s', shown), ('n', read), ('o', told)]
with open(os.path.join(OUT, 'stdout'), 'wb') as out:
    for asked, group in files:
        for i, (b, says) in enumerate(group):
            name = '%s%02d' % (asked, i)
            with open(os.path.join(OUT, 'data', name), 'wb') as f:
                f.write(b)
            out.write(name.encode() + b'\n' + (says if isinstance(says, bytes) else says.encode()))
print(', '.join('%d of %s' % (len(group), asked) for asked, group in files))

# Newick texts. Reading: a text is a sentence when its innermost parts can be replaced by one sign until a single group is left, and begins one when one of a
# few tails makes it a sentence; an edge has below it the taxa that stand between its brackets. Writing: from the smallest cluster to the largest.
NUMBER = rb'(?:0|[1-9][0-9]*)'
DEEPEST, HEAVIEST = 130, 2000000

def depth(text):
    return max(itertools.accumulate((byte == 40) - (byte == 41) for byte in text), default=0)

def is_sentence(text):
    if re.search(rb'[^0-9(),:;]', text) or depth(text) > DEEPEST:
        return False
    before, text = text, re.sub(NUMBER + b':' + NUMBER, b'L', text)
    while text != before:
        before, text = text, re.sub(rb'\(L(?:,L)*\):' + NUMBER, b'L', text)
    return re.fullmatch(rb'\(L(?:,L)*\);', text) is not None

def begins_one(text):
    for tail in (b'', b'0', b':0', b'0:0', b'(0:0'):
        whole = text + tail
        still_open = whole.count(b'(') - whole.count(b')')
        if is_sentence(whole) or is_sentence(whole + b'):0' * (still_open - 1) + b')' * (still_open > 0) + b';'):
            return True
    return False

def first_bad(text):  # where the bytes up to and including it begin no sentence; what begins one does so with fewer bytes too
    low, high = 0, len(text)
    while low < high:
        middle = (low + high) // 2
        low, high = (middle + 1, high) if begins_one(text[:middle + 1]) else (low, middle)
    return low

def taxa_in(part):
    return [(int(m[1]), m.start(1)) for m in re.finditer(rb'(?:^|[(,])([0-9]+)', part)]

def opening(text, at):  # the bracket that the one at this place closes
    return next(i for i in range(at, -1, -1) if text[i:at + 1].count(b'(') == text[i:at + 1].count(b')'))

def read_newick(n, text):  # the rows, or (number, place)
    if not 2 <= n <= 64:
        return 1, 0
    end = text.find(b';')
    if not is_sentence(text[:end + 1]):
        return 19, first_bad(text)
    text = text[:end + 1]
    taxa = taxa_in(text)
    for i, (taxon, place) in enumerate(taxa):
        if taxon >= n or taxon in [t for t, _ in taxa[:i]]:
            return 20, place
    if len(taxa) < n:
        return 20, end
    edges = []
    for m in re.finditer(rb'(?:([0-9]+)|\)):([0-9]+)', text):
        below = {int(m[1])} if m[1] else {t for t, _ in taxa_in(text[opening(text, m.start()):m.start()])}
        cluster = set(range(n)) - below if 0 in below else below
        if int(m[2]) > 0:
            edges.append((sum(1 << t for t in cluster), int(m[2]), m.start(2)))
    clusters = [c for c, w, place in edges]
    for number, bad in (14, lambda c, w: w > HEAVIEST), (12, lambda c, w: c == 0), (13, lambda c, w: clusters.count(c) > 1):
        for c, w, place in edges:
            if bad(c, w):
                return number, place
    return sorted((c, w) for c, w, place in edges)

def write_newick(n, rows):
    waiting = []  # cluster, row, text
    for c, row, w in sorted(((c, row, w) for row, (c, w) in enumerate(rows)), key=lambda x: bin(x[0]).count('1')) + [(2 ** n - 1, len(rows), None)]:
        inner = sorted((x for x in waiting if x[0] & c == x[0]), key=lambda x: x[1])
        waiting = [x for x in waiting if x not in inner]
        own = [t for t in range(n) if c >> t & 1 and not any(x[0] >> t & 1 for x in inner)]
        bare = not inner and len(own) == 1
        text = str(own[0]) if bare else '(' + ','.join(['%d:0' % t for t in own] + [x[2] for x in inner]) + ')'
        waiting.append((c, row, text + (';' if w is None else ':%d' % w)))
    return waiting[0][2]

# 64 taxa in closed form: one after the other beside all that follow; a star; halves of halves, the first half by its two quarters
singles = [(1 << i, i) for i in range(1, 64)]
deep = sorted(singles + [(2 ** 64 - 2 ** i, 100 + i) for i in range(1, 63)])
deep_text = '(0:0' + ''.join(',(%d:%d' % (i, i) for i in range(1, 63)) + ',63:63' + ''.join('):%d' % (100 + i) for i in range(62, 0, -1)) + ');'
star = singles + [(2 ** 64 - 2, 2000000)]
star_text = '(0:0,(' + ','.join('%d:%d' % (i, i) for i in range(1, 64)) + '):2000000);'
blocks = [(low, size) for size in (1, 2, 4, 8, 16) for low in range(0, 64, size)] + [(32, 32)]
halves = sorted((2 ** (low + size) - 2 ** low if low else 2 ** 64 - 2 ** size, 1000 * size + low) for low, size in blocks)

def halved(low, size):
    inside = '(%s,%s)' % (halved(low, size // 2), halved(low + size // 2, size // 2)) if size > 1 else low
    return '%s:%d' % (inside, 1000 * size + low)

halves_text = '(%s,%s,%s);' % (halved(0, 16), halved(16, 16), halved(32, 32))
A_ROWS = [(2, 6), (4, 8), (8, 10), (12, 6), (14, 4)]
A_TEXT = '(0:0,(1:6,(2:8,3:10):6):4);'
B_ROWS = [(2, 2), (4, 4), (8, 5), (12, 3), (14, 1)]
B_TEXT = '(0:0,(1:2,(2:4,3:5):3):1);'

# n, text, and worked out by hand: (number, place), or the rows and their text (None: the same text)
HAND = [
    # lists and their texts
    (2, '(0:0,1:0);', ([], None)),  # no row: both taxa at the root
    (2, '(0:0,1:7);', ([(2, 7)], None)),
    (4, '(0:0,1:0,2:0,3:0);', ([], None)),
    (4, A_TEXT, (A_ROWS, None)),  # matrix A of document 01
    (4, '(0:0,3:0,(1:0,2:0):9);', ([(6, 9)], None)),  # two share the root, two another home
    (3, '(0:0,(1:0,2:5):9);', ([(4, 5), (6, 9)], None)),  # taxon 1 at home on an inner vertex
    (4, '(0:0,(1:0,(2:3,3:4):5):6);', ([(4, 3), (8, 4), (12, 5), (14, 6)], None)),
    (4, '(0:0,2:7,(1:1,3:2):4);', ([(2, 1), (4, 7), (8, 2), (10, 4)], None)),  # children by row: 4 before 10
    (4, '(0:0,(1:1,2:2):4,3:7);', ([(2, 1), (4, 2), (6, 4), (8, 7)], None)),  # and 6 before 8
    (3, '(0:0,(1:0,2:0):2000000);', ([(6, 2000000)], None)),
    # the grammar, at its first bad byte
    (2, '', (19, 0)),
    (2, ';', (19, 0)),
    (2, '0:5;', (19, 0)),  # a bare leaf as root
    (2, '(0,1:1);', (19, 2)),  # a weight is always there
    (2, '(0:0,1:1):5;', (19, 9)),  # a root with a weight
    (2, '(0:0,01:1);', (19, 6)),  # leading zeros: the digit after the 0
    (2, '(00:0,1:1);', (19, 2)),
    (2, '(0:00,1:1);', (19, 4)),
    (2, '(0:0,1:01);', (19, 8)),
    (2, '();', (19, 1)),  # one child at least
    (2, '(0:0,);', (19, 5)),
    (2, '(,0:0);', (19, 1)),
    (2, '(0:0,():1);', (19, 6)),
    (2, '(0:0,1:1));', (19, 9)),
    (2, '((0:0,1:1);', (19, 10)),
    (2, '((0:0,1:1):;', (19, 11)),
    (2, '(0:0:0,1:1);', (19, 4)),
    (2, '(:0,1:1);', (19, 1)),
    (2, '(', (19, 1)),  # cut short: the length
    (2, '(0:0,1:1)', (19, 9)),
    (2, '(0:0,1:1', (19, 8)),
    (2, '(0:0,0:1', (19, 8)),  # before 20
    (2, '(0:0,1:1);(0:0,', ([(2, 1)], '(0:0,1:1);')),  # nothing behind the semicolon is looked at
    (2, '(0:0,1:1); \r', ([(2, 1)], '(0:0,1:1);')),
    (2, '(0:0,1:1);;', ([(2, 1)], '(0:0,1:1);')),
    # as other programs write
    (4, '((0:1,1:2):3,2:4,3:5);', (B_ROWS, B_TEXT)),  # three branches at the root
    (4, '((0:1,1:2):3,(2:4,3:5):6);', (13, 11)),  # two branches: both have 2 and 3 beyond them
    (4, '((0:1,1:2):3,(2:4,3:5):0);', (B_ROWS, B_TEXT)),  # unless one has length 0
    (4, '((0:1,1:2):0,(2:4,3:5):3);', (B_ROWS, B_TEXT)),
    (3, '((0:1,1:2):3,2:4);', (13, 11)),
    (2, '(0:5,1:3);', (13, 3)),
    (2, '(0:1.5,1:2);', (19, 4)),  # a length with a point
    (2, '(0:0.1,1:0.2);', (19, 4)),
    (2, '(0:1e2,1:2);', (19, 4)),
    (2, '(0:-1,1:2);', (19, 3)),
    (2, '(A:1,B:2);', (19, 1)),  # names
    (2, '(0:1,taxon1:2);', (19, 5)),
    (3, '((0:1,1:2)x:3,2:0);', (19, 10)),  # a name, or a support, of an inner vertex
    (3, '((0:1,1:2)95:3,2:0);', (19, 10)),
    (2, '(0:0,1:1)root;', (19, 9)),
    (2, '(0:1, 1:2);', (19, 5)),  # spaces
    (2, ' (0:1,1:2);', (19, 0)),
    (2, '(0:1,1:2) ;', (19, 9)),
    (2, '(0:1,\t1:2);', (19, 5)),
    (2, "('0':1,1:2);", (19, 1)),  # quotes
    (2, '("0":1,1:2);', (19, 1)),
    (2, '[&U](0:0,1:1);', (19, 0)),  # comments in square brackets
    (2, '(0:0[x],1:1);', (19, 4)),
    (2, '(0:0,1:1)[x];', (19, 9)),
    (2, '(0,1);', (19, 2)),  # no lengths
    (3, '((0,1),2);', (19, 3)),
    (3, '((0:1,1:2),2:0);', (19, 10)),
    (2, b'\xef\xbb\xbf(0:0,1:1);', (19, 0)),  # a byte order mark
    (2, b'(0:0\0,1:1);', (19, 4)),
    (2, b'(0:0,\xb9:1);', (19, 5)),
    # 20: the first that is repeated or too large, else the semicolon
    (2, '(0:0,0:1);', (20, 5)),
    (2, '(0:0,2:1);', (20, 5)),
    (2, '(0:0,0:0,9:1);', (20, 5)),
    (2, '(0:0,9:0,0:1);', (20, 5)),
    (2, '(1:0,1:5);', (20, 5)),  # the repeat, not the missing 0
    (3, '(0:0,1:1);', (20, 9)),
    (3, '(1:1,2:2);', (20, 9)),
    (2, '(0:0);', (20, 5)),
    (2, '(0:0,257:1);', (20, 5)),
    (2, '(0:0,4294967297:1);', (20, 5)),
    (2, '(0:0,18446744073709551617:1);', (20, 5)),
    (2, '(0:0,1' + '0' * 39 + ':1);', (20, 5)),
    (64, '(0:0,64:1);', (20, 5)),
    (2, '(0:2000001,0:1);', (20, 11)),  # before 14
    (2, '((0:1):2,((1:3):4,1:5):6);', (20, 18)),
    # 14: above the limit only, for an edge of length 0 is dropped
    (2, '(0:0,1:2000000);', ([(2, 2000000)], None)),
    (2, '(0:0,1:2000001);', (14, 7)),
    (2, '(0:0,1:1' + '0' * 39 + ');', (14, 7)),
    (2, '(0:0,1:4294967301);', (14, 7)),
    (2, '(0:0,1:18446744073709551616);', (14, 7)),
    (3, '((0:1,1:3000000):2000001,2:4);', (14, 8)),  # the earliest in the text
    (3, '((0:1,1:1):2000001,2:3000000);', (14, 11)),
    (2, '((0:1,1:2):2000001);', (14, 11)),  # before 12
    (2, '(0:5,1:2000001);', (14, 7)),  # before 13
    # 12: the old root has a single child and no taxon
    (3, '((0:1,1:2,2:3):5);', (12, 15)),
    (2, '(((0:0,1:1):2):3);', (12, 12)),
    (2, '((0:5,1:3):1);', (12, 11)),  # before 13
    (2, '((0:0,1:1):0);', ([(2, 1)], '(0:0,1:1);')),  # of length 0
    (2, '((0:0):4,1:0);', ([(2, 4)], '(0:0,1:4);')),  # 1 at home at the old root
    # 13: all that share a cluster count, and the earliest of all is told
    (3, '((0:0,1:1):0,(2:4):5);', (13, 16)),
    (3, '(0:5,((1:1):2,2:7):6);', (13, 3)),
    (3, '(0:0,(((1:1):2):3,2:7):6);', (13, 10)),
    # edges of length 0: dropped, their ends joined
    (3, '((0:0,1:0):0,(2:0):0);', ([], '(0:0,1:0,2:0);')),
    (4, '((0:1,1:2):0,2:4,3:5);', ([(2, 2), (4, 4), (8, 5), (14, 1)], '(0:0,(1:2,2:4,3:5):1);')),
    (3, '((2:0,1:0):0,0:3);', ([(6, 3)], '(0:0,(1:0,2:0):3);')),
    (3, '(((1:2):0,(2:0):0):0,(((0:3):0):0):0);', ([(2, 2), (6, 3)], '(0:0,(2:0,1:2):3);')),  # a vertex's taxa come first
    # one tree, re-rooted and its children in another order
    (4, '((3:10,2:8):6,(0:4):0,1:6);', (A_ROWS, A_TEXT)),
    (4, '(3:10,((1:6,0:4):6):0,2:8);', (A_ROWS, A_TEXT)),
    (4, '(2:0,((3:10,(0:4,1:6):6):8):0);', (A_ROWS, A_TEXT)),
    (4, '(1:0,((2:8,3:10):6,(0:0):4):6);', (A_ROWS, A_TEXT)),
    # depth
    (2, '(' * 130 + '0:0,1:7' + '):0' * 129 + ');', ([(2, 7)], '(0:0,1:7);')),
    (2, '(' * 131 + '0:0,1:7' + '):0' * 130 + ');', (19, 130)),
    (2, '(' * 200, (19, 130)),
    (2, '(' * 130, (19, 130)),
    (2, '(0:0,' + '(' * 129 + '1:7' + '):0' * 129 + ');', ([(2, 7)], '(0:0,1:7);')),
    (2, '(0:0,' + '(' * 130 + '1:7' + '):0' * 130 + ');', (19, 134)),
    (64, '(' + ','.join('(((%d:0):0):0):0' % i for i in range(64)) + ');', ([], '(' + ','.join('%d:0' % i for i in range(64)) + ');')),
    # 64 taxa
    (64, deep_text, (deep, None)),
    (64, star_text, (star, None)),
    (64, halves_text, (halves, write_newick(64, halves))),
    # n
    (0, '(0:0,1:1);', (1, 0)),
    (1, '(0:0);', (1, 0)),
    (65, '(0:0,1:1);', (1, 0)),
    (1, '', (1, 0)),  # before 19
]

newicks = []
for n, text, answer in HAND:
    text = text if isinstance(text, bytes) else text.encode()
    if isinstance(answer[0], list):
        rows, again = answer
        assert read_newick(n, text) == rows and write_newick(n, rows) == (again or text.decode()), text
        assert read_newick(n, write_newick(n, rows).encode()) == rows, text
    else:
        assert read_newick(n, text) == answer, (text, read_newick(n, text))
    newicks.append((n, text))

# one text damaged at every byte: each put in place of it, it taken out, all from there on cut off
good = b'((3:10,2:8):6,(0:4):0,1:6);'
for i in range(len(good)):
    newicks += [(4, good[:i] + bytes([byte]) + good[i + 1:]) for byte in b'012(),:; .' if byte != good[i]]
    newicks += [(4, good[:i] + good[i + 1:]), (4, good[:i])]

NEWICK = os.path.join(HERE, '..', 'crates', 'newick_figures')
os.makedirs(os.path.join(NEWICK, 'data'), exist_ok=True)
with open(os.path.join(NEWICK, 'data', 'texts0'), 'wb') as data, open(os.path.join(NEWICK, 'stdout'), 'w') as out:
    for i, (n, text) in enumerate(newicks):
        data.write(b'%d %s\n' % (n, text))
        answer = read_newick(n, text)
        if isinstance(answer, list):
            out.write('%d: taxa %d rows %d\n' % (i, n, len(answer)) + ''.join('%d %d\n' % r for r in answer) + write_newick(n, answer) + '\n')
        else:
            out.write('%d: refused %d at %d\n' % ((i,) + answer))
    assert data.tell() <= 65536
print('%d Newick texts, %d of them by hand' % (len(newicks), len(HAND)))
