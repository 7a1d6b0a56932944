#!/usr/bin/env python3
"""port_names: the repository's own definitions, lemmas, record fields and local names in today's spelling, snake case.

    python3 tools/port_names.py [--table FILE]

Run once, at the top of the tree. What is turned is read from the text: each word of specs/ and of the lemma files of proofs/ that is in camel case, or joined by
dashes, and that no library declares. It is turned where it is declared and wherever it is used: in specs/ and proofs/, in the clauses and the `ghost use` lines of
src/, in the texts of edits, and in what README.md and docs/ say of it. Types, records and modules keep their names; so do names of the library, of Rust and those
that Rattle makes (in a Proof.antt only names that the file imports from specs/ or a lemma file, or declares itself as a lemma, are turned).
--table FILE writes what was turned, a line `old<TAB>new` each.
"""
import collections
import glob
import re
import sys

# Spelled otherwise than letter by letter, and why.
SPECIAL = {
    # a lemma that would have its function's name gets `_lem`
    'above-n': 'above_n_lem',
    'after-of': 'after_of_lem',
    'answer-text': 'answer_text_lem',
    'broken-by': 'broken_by_lem',
    'clock-moved': 'clock_moved_lem',
    'count-allowed': 'count_allowed_lem',
    'counterpart-slot': 'counterpart_slot_lem',
    'each-used': 'each_used_lem',
    'final-given': 'final_given_lem',
    'first-blocks': 'first_blocks_lem',
    'first-difference': 'first_difference_lem',
    'held-at': 'held_at_lem',
    'is-trade': 'is_trade_lem',
    'judged-by': 'judged_by_lem',
    'leading-digits': 'leading_digits_lem',
    'mark-found': 'mark_found_lem',
    'n-allowed': 'n_allowed_lem',
    'n-of': 'n_of_lem',
    'nets-allowed': 'nets_allowed_lem',
    'opening-allowed': 'opening_allowed_lem',
    'own-series': 'own_series_lem',
    'own_in': 'own_in_lem',
    'partner-by': 'partner_by_lem',
    'right-in': 'right_in_lem',
    'right_by': 'right_by_lem',
    'series-at': 'series_at_lem',
    'series-in': 'series_in_lem',
    'series-right': 'series_right_lem',
    'series-sound': 'series_sound_lem',
    'sum-on': 'sum_on_lem',
    'text-laid': 'text_laid_lem',
    'text-length': 'text_length_lem',
    'trade-view': 'trade_view_lem',
    'unsigned-read': 'unsigned_read_lem',
    'used-converted': 'used_converted_lem',
    'verdict-told': 'verdict_told_lem',
    # a field of a record of facts, that would have the name of the function that it is about: said as a sentence
    'first-ids': 'first_ids_found',
    'first-keys': 'first_keys_found',
    'stored-ids': 'stored_ids_found',
    'in-area': 'in_area_is',
    'out-area': 'out_area_is',
    'numbers-told': 'numbers_are_told',
    'partners-found': 'partners_are_found',
    'senders-slot': 'senders_slot_is',
    'sound-book': 'book_is_sound',
    'type-allowed': 'type_is_allowed',
    'version-allowed': 'version_is_allowed',
    'used-count': 'used_count_is',
    # names for a word of the library: its own name where it can be had, else the type first
    'Option·map': 'option_map',
    'Option·getD': 'option_get_or',
    'List·getD-append': 'get_or-append',
    'List·getD-eq-default': 'get_or-eq_default',
    'List·getD-map': 'get_or-map',
    # a number is a word of its own, as in the functions of layout
    'clockPlus10080': 'clock_plus_10080',
    # getD is get_or today
    'all_get_d': 'all_get_or',
    'get_d_map': 'get_or_map',
    'getD-map': 'get_or_map',
    'all-getD': 'all_get_or',
    'all-getD-inside': 'all_get_or_inside',
    'getD-inside': 'get_or_inside',
    'nth-getD': 'nth_get_or',
}

# Of those, the words that are turned though nothing in their spelling asks for it.
PLAIN = ('own_in', 'right_by', 'all_get_d', 'get_d_map')

# Names that the kit's script turned already in specs/, proofs/ and src/: pages and edits have them in the old spelling.
TURNED = """
add-a, added-more, added-none, afterOf, again-kept, alike-refl, alike-spec, all-append, all-both, all-drop, all-getD, all-keep, all-map, all-named,
all-new, all-once, all-take, and-assoc, and-both, and-left, and-no, and-right, answerOf, apart-none, area-of, at-meets, at-place, at-walks, below-at,
below-each, below-more, block-back, block-made, block-none, block-written, blockLine, both-true, butAt, by-key, by-kind, by-values, bytesOf,
clear-spec, cleared-more, closed-at, code-agree, codeIn, cond-either, cond-has, count-map, count-most, count-of, counted-none, cut-all, cut-at,
cut-short, done-all, done-more, done-next, done-none, end-list, end-whole, entries-none, every-append, every-more, field-back, fieldOf, filled-more,
filled-none, first-on, first-passes, first-small, first-spec, firstOf, found-all, found-at, found-none, found-some, from-first, front-length, full-is,
getD-map, go-on, goes-at, goes-step, has-append-left, has-append-right, has-one, headOf, held-after, held-none, held-spec, heldAt, homes-none, idOf,
in-order, inArea, inBlock, is-same, isHeld, keep-all, keep-append, kept-for, kept-more, key-back, key-reads, known-values, laid-none, laid-one,
laid-then, last-end, last-turn, lastOf, later-refl, later-same, later-trans, left-alone, left-less, left-out, length-none, lent-length, lineOf,
lines-end, lines-more, lines-none, look-at, look-one, look-spec, main-spec, map-same, mark-spec, markOf, marked-by, marked-more, moved-length, nOf,
nameAt, named-none, new-is, new-meets, new-spec, new-walks, next-fits, no-digit, no-minus, no-other, no-overflow, no-slot, none-above, none-from,
none-named, none-passes, not-found, not-named, not-negative, not-own, not-right, not-sound, noted-other, number-in, number-is, number-more, number-of,
number-past, number-short, number-small, numberIn, numberOf, numbered-next, ofAll, ofBoth, ofBytes, ofCodes, ofList, once-is, once-more, one-key,
one-right, one-side, open-spec, openAt, or-else, or-else-none, or-left, or-no, or-right, or-yes-right, orElse, other-differs, other-step, other-tag,
over-none, own-held, own-in, own-new, own-of, own-out, own-row, own-value, ownOf, owner-of, pair-spec, part-end, part-length, part-none, part-slice,
part-small, past-more, pieces-end, pieces-more, pieces-none, pieces-step, place-is, place-map, place-none, place-up, place-view, placedOf, placesBy,
product-small, put-as, put-back, put-either-spec, put-full, put-spec, read-number, read-small, read-spec, rest-more, right-by, right-is, right-kept,
right-there, room-fits, rowOf, rows-all, rows-end, rows-none, rowsFrom, run-end, run-inside, run-is, same-end, same-place, same-refl, same-spec,
same-start, same-test, same-turn, seek-hit, sent-is, settled-at, share-in, slot-is, slots-length, small-count, spread-end, stateOf, step-cut,
still-open, stored-one, sum-more, sumTo, table-at, take-all-spec, take-chunks, to-at, to-step, too-short, two-bytes, two-good, until-end, upto-false,
upto-true, value-spec, valueOf, walk-end, walk-inside, walk-more, whole-sum, widthOf, withNumber, wordOf, written-all, written-in, written-last,
written-none, written-over, yes-true, zero-more, zeros-of, held-plain,
soFar
""".replace('\n', ' ').split(', ')

# Words of pages and edits that are spelled as a name of ours and mean something else: keys of a message's text.
NOT_NAMES = ('in-area', 'out-area')

LEX = re.compile(r'(?P<comment>(?<!\S)--[^\n]*)|(?P<string>"(?:\\.|[^"\\])*")|(?P<word>[^\s(){}\[\].,;"«»]+)')
IN_RUST = re.compile(r'(?P<comment>//[^\n]*)|(?P<string>b?"(?:\\.|[^"\\])*")|(?P<word>[^\s(){}\[\].,;"«»]+)')
IMPORT = re.compile(r'\buse\s+([^\s{};]+?)\.\{([^}]*)\}')
CLAUSE = re.compile(r'\b(?:requires|ensures)\s+(?:\w+\s+)?\{|\bghost\s+use\b')
PAGE_WORD = re.compile(r"[A-Za-z][\w·′'-]*")


def read(path):
    with open(path, encoding='utf-8') as f:
        return f.read()


def write(path, text):
    with open(path, 'w', encoding='utf-8') as f:
        f.write(text)


def found(*patterns):
    return sorted(f for p in patterns for f in glob.glob(p, recursive=True))


def words(text):
    return [m.group('word') for m in LEX.finditer(text) if m.group('word')]


def undotted(text):
    """The words that stand behind no dot: those that something else could hide."""
    return {m.group('word') for m in LEX.finditer(text) if m.group('word') and not (m.start() and text[m.start() - 1] == '.')}


def code(text):
    """The text without comments and strings."""
    return LEX.sub(lambda m: '' if m.group('comment') else '""' if m.group('string') else m.group(0), text)


def imports(text):
    """Each import: the path, and the items as (name, name here)."""
    for m in IMPORT.finditer(code(text)):
        items = [i.strip() for i in m.group(2).split(',') if i.strip()]
        yield m.group(1), [(i.split(' as ')[0].strip(), i.split(' as ')[-1].strip()) for i in items]


def to_turn(word):
    if '◌' in word or not word[0].isalpha():
        return False
    if '·' in word or '′' in word:
        return True
    return not word[0].isupper() and ('-' in word or any(c.isupper() for c in word))


def snake(word):
    if word in SPECIAL:
        return SPECIAL[word]
    word = word.replace('·', '_').replace('-', '_').replace('′', "'")
    return re.sub(r"(?<=[a-z0-9'])(?=[A-Z])", '_', word).lower()


def fields_of(text):
    """Names of fields of the records that a text declares."""
    names = set()
    inside = None
    for line in code(text).split('\n'):
        if not line.strip():
            continue
        indent = len(line) - len(line.lstrip())
        if inside is not None and indent <= inside:
            inside = None
        if re.match(r'\s*(pub )?record ', line):
            inside = indent
        elif inside is not None:
            m = re.match(r'\s*(?:pub )?((?:[^\s(){}:]+ )+):( |$)', line)
            if m:
                names |= set(m.group(1).split())
    return names


def turn(text, table, lex=LEX, dotted=None, in_comments=True):
    """The text with each word of the table turned. Behind a dot, where `dotted` is given, only those of `dotted`, and none that a generated path goes through."""
    def one(m):
        if m.group('string'):
            return m.group(0)
        if m.group('comment'):
            if not in_comments:
                return m.group(0)
            return PAGE_WORD.sub(lambda w: table.get(w.group(0), w.group(0)), m.group(0))
        word = m.group('word')
        if m.start() and text[m.start() - 1] == '.' and dotted is not None:
            if re.match(r'\.(ensures|requires|link|true|false|before)\b', text[m.end():]):
                return word
            return dotted.get(word, word)
        return table.get(word, word)
    return lex.sub(one, text)


def without_needless_as(text):
    return re.sub(r"(?<=[{ ])([^\s{},]+) as \1(?=[,}])", r'\1', text)


def turn_rust(text, table):
    """The clauses and the `ghost use` lines of a source file, turned."""
    parts, at = [], 0
    blank = re.sub(r'//[^\n]*|b?"(?:\\.|[^"\\\n])*"', lambda m: ' ' * len(m.group(0)), text)
    while True:
        m = CLAUSE.search(blank, at)
        if not m:
            return ''.join(parts) + text[at:]
        if m.group(0).endswith('{'):
            end, depth = m.end(), 1
            while depth:
                depth += {'{': 1, '}': -1}.get(blank[end], 0)
                end += 1
        else:
            end = blank.index(';', m.end())
        parts += [text[at:m.start()], turn(text[m.start():end], table, IN_RUST, in_comments=False)]
        at = end


def turn_page(text, table):
    """A page: names in camel case everywhere, others inside of a code span."""
    camel = {o: n for o, n in table.items() if '-' not in o and '_' not in o}
    spans = {o: n for o, n in table.items() if o not in NOT_NAMES and o not in PLAIN}
    out = []
    for i, part in enumerate(re.split(r'(```.*?```|`[^`\n]*`)', text, flags=re.S)):
        use = spans if i % 2 else camel
        out.append(PAGE_WORD.sub(lambda w: use.get(w.group(0), w.group(0)), part))
    return ''.join(out)


def main():
    crates = {p.split('/')[1] for p in glob.glob('crates/*/')}
    antt = found('crates/*/specs/**/*.antt', 'crates/*/proofs/**/*.antt')
    if not antt:
        sys.exit('port_names: run it at the top of the tree')
    text = {f: read(f) for f in antt}
    walks = [f for f in antt if f.endswith('/Proof.antt')]
    laws = [f for f in antt if not f.endswith('/Proof.antt')]

    def is_ours(path):
        p = path.split('.')
        return p[0] == 'Rattle' and p[1] in crates

    library = {n for f in antt for path, items in imports(text[f]) if not is_ours(path) for n, _ in items}
    table = {}
    for f in laws:
        for w in words(text[f]):
            if (to_turn(w) and w not in library) or w in PLAIN:
                table[w] = snake(w)
    fields = {o: table[o] for f in laws for o in fields_of(text[f]) if o in table}

    # What falls together: two names of one file that would be one, or a name that is there already.
    bad = []
    for f in laws:
        here = undotted(text[f])
        paths = {s for path, _ in imports(text[f]) for s in path.split('.')}
        new = collections.defaultdict(set)
        for w in here:
            new[table.get(w, w)].add(w)
        for n, olds in new.items():
            if len(olds) > 1 and not (n in olds and (n in paths or n in library)):
                bad.append(f'{f}: {", ".join(sorted(olds))} would be {n}')

    turned = {}
    for f in laws:
        turned[f] = without_needless_as(turn(text[f], table))

    # A walk: what it brings in from our files, and its own lemmas.
    for f in walks:
        own = {}
        for path, items in imports(text[f]):
            if is_ours(path):
                own.update({n: table[n] for item in items for n in item if n in table})
        for m in re.finditer(r'(?m)^(?:pub )?([^\s(){}:]+) :\s+(\S+)', code(text[f])):
            name, first = m.groups()
            if to_turn(name) and not first.startswith(('tie.', 'goal.')) and name not in library:
                own[name] = snake(name)
        body = turn(text[f], own, dotted=fields)
        # a record's fields, where one is built
        body = re.sub(r"([{;]\s*)([^\s(){}\[\].,;]+)(?= = )", lambda m: m.group(1) + fields.get(m.group(2), m.group(2)), body)
        here = undotted(text[f])
        paths = {s for path, _ in imports(text[f]) for s in path.split('.')}
        for o, n in own.items():
            if n in here and n not in paths and o != n:
                bad.append(f'{f}: {o} would be {n}, which is there')
        turned[f] = without_needless_as(body)

    # Sources: a parameter hides a word of its name.
    for f in found('crates/*/src/**/*.rt'):
        before = read(f)
        after = turn_rust(before, table)
        turned[f] = after
        plain = re.sub(r'//[^\n]*', '', after)
        for m in re.finditer(r'\bfn\s+(\w+)(?:<[^>]*>)?\s*\(', plain):
            end, depth = m.end(), 1
            while depth:
                depth += {'(': 1, ')': -1}.get(plain[end], 0)
                end += 1
            parameters = set(re.findall(r'(\w+)\s*:', plain[m.end():end]))
            rest = plain[end:]
            head = rest[:min(i for i in (rest.find('\n{'), rest.find('\n    {'), len(rest)) if i >= 0)]
            old_words = {o for o, n in table.items() if n in parameters and re.search(r'(?<![\w.-])' + re.escape(o) + r'(?![\w-])', before)}
            for o in old_words:
                if re.search(r'(?<![\w.])' + re.escape(table[o]) + r'(?!\w)', head):
                    bad.append(f'{f}: {o} would be {table[o]}, a parameter of {m.group(1)}')

    if bad:
        print('\n'.join(bad))
        sys.exit(f'port_names: {len(bad)} names fall together; nothing was written')

    # Edits, and pages.
    pages = {o: n for o, n in table.items()}
    for o in TURNED:
        pages.setdefault(o.strip(), SPECIAL.get(o.strip(), snake(o.strip())))
    for f in found('crates/*/edits/*.edit', 'crates/*/must-fail/*.edit'):
        lines, target = [], ''
        for line in read(f).split('\n'):
            key, _, rest = line.partition(': ')
            if key == 'file':
                target = rest
            if key in ('old', 'new'):
                use = {o: n for o, n in pages.items() if o not in NOT_NAMES and o not in PLAIN}
                if not target.startswith(('specs/', 'proofs/')):
                    # of code only names in camel case, which no function of Rust has
                    use = {o: n for o, n in use.items() if any(c.isupper() for c in o)}
                line = f'{key}: ' + turn(rest, use, in_comments=True)
            elif not line.startswith(('file:', 'refused by:')):
                line = turn_page(line, {o: n for o, n in pages.items() if '-' not in o})
            lines.append(line)
        turned[f] = '\n'.join(lines)
    for f in found('README.md', 'docs/*.md'):
        turned[f] = turn_page(read(f), pages)
    f = 'tools/c-tests'
    turned[f] = read(f).replace(r"s/^pub \(.*\)-determined :.*/tetherbay_\1/p' crates/export/proofs/Determined.antt | tr - _ | sort", r"s/^pub \(.*\)_determined :.*/tetherbay_\1/p' crates/export/proofs/Determined.antt | sort")

    changed = 0
    for f, new in turned.items():
        if new != read(f):
            write(f, new)
            changed += 1
    print(f'{len(table)} names turned in {changed} files')
    if '--table' in sys.argv:
        write(sys.argv[sys.argv.index('--table') + 1], ''.join(f'{o}\t{n}\n' for o, n in sorted(table.items())))


if __name__ == '__main__':
    main()
