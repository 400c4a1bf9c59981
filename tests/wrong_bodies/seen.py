"""What the prover sees of a file from elsewhere, in parts: of code types, constants, traits and functions, these without bodies; of definitions each one.
Comments and attributes are left out. A part says what it is called, and what stands in it, so that one can ask which parts a text rests upon.

What stands in code are its words, its paths (`Pair::new`), its calls by a point (`.sum`), and, behind CODE_MARK, the words outside of clauses. In definitions these
are words, and the same behind MEANT_MARK. A crate above names a function by one of the ways in which it is called, since no definition can call
it, and a private type or field in definitions alone."""
import re
from dataclasses import dataclass

# What a text in code is made of. A lifetime is told from a character by the mark that ends that.
CODE = re.compile(r'''
    (?P<comment>//[^\n]*)
  | (?P<text>[bc]?"(?:\\.|[^"\\])*"|b?'(?:\\(?:x..|u\{\w*\}|.)|[^\\'\n])'|[bc]?r(?P<marks>\#*)".*?"(?P=marks))
  | (?P<word>\w+|'\w+)
  | (?P<blank>\s+)
  | (?P<mark>.)
''', re.VERBOSE | re.DOTALL)

DEFINITION = re.compile(r'"(?:\\.|[^"\\])*"|--[^\n]*|\s+|[^"\s-]+|.', re.DOTALL)

# What stands between the words of definitions.
BETWEEN = re.compile(r'[\s(){}\[\];,.:]+')

OPENS, CLOSES = '([{', ')]}'

# What may stand between the word of a clause and its brace: nothing, or its name.
CLAUSES = ('requires', 'ensures')

# Words before the name of a definition.
BEFORE = ('pub', 'abbrev', 'record', 'data')

# What stands before a word of code outside of clauses, and before a word of a definition.
CODE_MARK, MEANT_MARK = '!', '?'


@dataclass(frozen=True)
class Part:
    """A part of a file: a text names it where all of these names stand in it."""
    names: tuple
    text: str
    words: frozenset


def pieces(text):
    """The words, texts and marks of code, without comments and blanks. Marks that make one operator stay apart."""
    found = [it for it in CODE.finditer(text) if it.lastgroup not in ('comment', 'blank')]
    return [it.group() for it in found]


def group_end(all_pieces, at):
    """The place behind the group that opens here."""
    depth = 0
    for place in range(at, len(all_pieces)):
        if all_pieces[place] in OPENS:
            depth += 1
        elif all_pieces[place] in CLOSES:
            depth -= 1
            if depth == 0:
                return place + 1
    raise ValueError('a group that nothing closes')


def is_clause(before):
    """Whether what stands before a brace says that a clause is in it."""
    words = [it for it in before[-3:] if it != '*']
    return words[-1:] and words[-1] in CLAUSES or len(words) > 1 and words[-2] in CLAUSES


def function_end(all_pieces, at):
    """Of the function whose word `fn` stands here: where its body begins, if it has one, and where it ends."""
    place = at
    while True:
        piece = all_pieces[place]
        if piece == ';':
            return None, place + 1
        if piece == '{' and not is_clause(all_pieces[at:place]):
            return place, group_end(all_pieces, place)
        place = group_end(all_pieces, place) if piece in OPENS else place + 1


def after_generics(head):
    """What stands behind the parameters in angles that begin here, if any do."""
    depth = 0
    for place, piece in enumerate(head):
        depth += (piece == '<') - (piece == '>' and head[place - 1] != '-')
        if depth == 0 and piece != '<':
            return head[place + (piece == '>'):]
    return []


def first_word(some):
    """The last word of the path that stands first."""
    found = ''
    for piece in some:
        if re.match(r'\w', piece):
            if found and found[-1] != ':':
                break
            found = piece
        elif piece == ':':
            found += piece
        elif found or piece not in ('&', '(', '['):
            break
    return found.rstrip(':')


def owners(head):
    """The names in an `impl`: of its type, and of its trait."""
    behind = after_generics(head[head.index('impl') + 1:])
    if 'for' in behind:
        return first_word(behind[behind.index('for') + 1:]), first_word(behind)
    return (first_word(behind),)


def unbodied(all_pieces):
    """Pieces without the bodies of functions, but for constants, whose value may be that of the body."""
    kept, place = [], 0
    while place < len(all_pieces):
        if all_pieces[place] == 'fn' and all_pieces[place + 1] != '(':
            body, end = function_end(all_pieces, place)
            kept += all_pieces[place:end if 'const' in kept[-3:] else body or end]
            place = end
        else:
            kept.append(all_pieces[place])
            place += 1
    return kept


def unattributed(all_pieces):
    """Pieces without attributes, which say what is derived and in which words errors are told, and nothing of what a body has to do."""
    kept, place = [], 0
    while place < len(all_pieces):
        if all_pieces[place:place + 2] == ['#', '[']:
            place = group_end(all_pieces, place + 1)
        else:
            kept.append(all_pieces[place])
            place += 1
    return kept


def outside_of_clauses(all_pieces):
    """Pieces without clauses and what else is there for clauses alone."""
    kept, place = [], 0
    while place < len(all_pieces):
        piece = all_pieces[place]
        if piece == '{' and is_clause(all_pieces[:place]):
            place = group_end(all_pieces, place)
        elif piece == 'ghost' and all_pieces[place + 1:place + 2] == ['use'] and ';' in all_pieces[place:]:
            place = all_pieces.index(';', place) + 1
        else:
            kept.append(piece)
            place += 1
    return kept


def named_in(all_pieces):
    """What stands in pieces of code: words, paths, calls by a point, words outside of clauses, and words in them. What `Self` or a type with
    parameters begins may be a path of any type."""
    words = {it for it in all_pieces if re.match(r'\w', it)}
    paths = {(one, other) for one, *colons, other in zip(all_pieces, all_pieces[1:], all_pieces[2:], all_pieces[3:]) if colons == [':', ':']}
    paths |= {(word, other) for one, other in paths if one in ('Self', '>') for word in words if word[0].isupper()}
    calls = {f'.{other}' for one, other in zip(all_pieces, all_pieces[1:]) if one == '.'}
    code = [it for it in outside_of_clauses(all_pieces) if re.match(r'\w', it)]
    meant = set(words) if len(code) < sum(1 for it in all_pieces if re.match(r'\w', it)) else set()
    return words | {'::'.join(it) for it in paths} | calls | {CODE_MARK + it for it in code} | {MEANT_MARK + it for it in meant}


def has_receiver(told):
    """Whether a function is called by a point."""
    behind = after_generics(told[told.index('fn') + 2:])
    return 'self' in behind[1:6][:next((place for place, it in enumerate(behind[1:6]) if it in (',', ')', ':')), 5)]


def ways_to_call(names, told, from_above):
    """What has to stand in a text that calls a function, in each way in which it can be called."""
    *owner, name = names
    if not from_above:
        return [names]
    if not owner:
        return [(CODE_MARK + name,)]
    by_path = (f'{owner[0]}::{name}',)
    return [by_path, (owner[0], f'.{name}')] if has_receiver(told) else [by_path]


def without_private_fields(told):
    """A type without the fields that crates above can't name."""
    opening = next((place for place, it in enumerate(told) if it in '({'), None)
    if 'struct' not in told or opening is None or told[opening - 1] in ('pub', 'crate'):
        return told
    end, fields, field, depth = group_end(told, opening), [], [], 0
    for before, piece in zip(told[opening:], told[opening + 1:end - 1]):
        depth += (piece in '([{<') - (piece in ')]}>' and (before, piece) != ('-', '>'))
        if piece == ',' and depth == 0:
            fields.append(field)
            field = []
        else:
            field.append(piece)
    shown = [it for it in [*fields, field] if it[:1] == ['ghost'] or it[:1] == ['pub'] and it[1:2] != ['(']]
    return told[:opening + 1] + [piece for it in shown for piece in [*it, ',']] + told[end - 1:]


def is_public(head):
    """Whether crates above can name what has this head."""
    return any(one == 'pub' and other != '(' for one, other in zip(head, [*head[1:], 'fn']))


def code_parts(all_pieces, from_above, others):
    """The parts of code, as one crate sees another, or itself; `others` are names that it is asked for besides its own."""
    head, place, derived = [], 0, set()
    while place < len(all_pieces):
        piece = all_pieces[place]
        end = group_end(all_pieces, place) if piece in OPENS else place + 1
        if piece == '#' and all_pieces[place + 1] == '[':
            end = group_end(all_pieces, place + 1)
            derived = set(all_pieces[place:end]) if not head else derived | set(all_pieces[place:end])
        elif piece == 'fn' and all_pieces[place + 1] != '(':
            body, end = function_end(all_pieces, place)
            told = head + all_pieces[place:end if 'const' in head else body or end]
            if 'const' in head or is_public(head) or not from_above:
                for names in ways_to_call((*others, all_pieces[place + 1]), told, from_above):
                    yield names, told
            head = []
        elif piece == '{' and 'mod' in head:
            yield from code_parts(all_pieces[place + 1:end - 1], from_above, others)
            head = []
        elif piece == '{' and 'impl' in head:
            inner, names = all_pieces[place + 1:end - 1], owners(head)
            if len(names) == 2:
                yield names, head + unattributed(unbodied(inner))
            else:
                if not from_above:
                    yield names, head
                yield from ((it, head + told) if from_above else (it, told) for it, told in code_parts(inner, from_above, names))
            head = []
        elif piece == '{' and 'trait' in head:
            yield (head[head.index('trait') + 1],), head + unattributed(unbodied(all_pieces[place + 1:end - 1]))
            head = []
        elif piece == ';' or piece == '{' and {'struct', 'enum', 'macro_rules'} & set(head):
            told = head + unattributed(all_pieces[place:end])
            kind = next((it for it in head if it in ('struct', 'enum', 'macro_rules', 'const', 'static', 'type')), None)
            if head[:2] == ['pub', 'use'] and 'as' in head:
                for name in (after for one, after in zip(head, head[1:]) if one == 'as'):
                    yield (name,), head
            elif kind and 'use' not in head:
                name = next(it for it in head[head.index(kind) + 1:] if re.match(r'\w', it))
                is_hidden = from_above and kind in ('struct', 'enum') and not is_public(head)
                is_whole = not from_above or kind != 'struct' or derived & {'PartialOrd', 'Ord'}
                if not is_hidden:
                    yield (*others, name), told if is_whole else without_private_fields(told)
                if from_above and kind in ('struct', 'enum'):
                    yield (*others, MEANT_MARK + name), told
            head = []
        else:
            head += all_pieces[place:end]
        place = end


def aliases(text, is_code=True):
    """What names stand for that `use` or `type` gives: the words of what is renamed, and the module of a definition."""
    found = {}
    text = ' '.join(pieces(text)) if is_code else text
    for use in re.findall(r'\buse ([^;]*);' if is_code else r'\buse ([^\n]*)', text):
        words = {it for it in BETWEEN.split(use) if it}
        for name in re.findall(r' as ([\w◌-]+)', use):
            found.setdefault(name, set()).update(words)
        if use.startswith('Rattle') and '{' in use:
            path, _, names = use.partition('{')
            for name in re.findall(r'[^\s{},]+', names):
                found.setdefault(name, set()).update(it for it in BETWEEN.split(path) if it)
    if is_code:
        for name, meant in re.findall(r'\btype (\w+)[^=;]*= ([^;]*);', text):
            found.setdefault(name, set()).update(it for it in BETWEEN.split(meant) if it)
    return found


def with_aliases(words, known):
    """Words and what they stand for; a path begins with what its first word stands for, too."""
    found = set(words).union(*(known[it] for it in known.keys() & words))
    for one, _, other in (it.partition('::') for it in words if '::' in it):
        found.update(f'{it}::{other}' for it in known.get(one, ()))
    return frozenset(found)


def of_code(text, from_above=True):
    r"""The parts of code.

    >>> [(' '.join(it.names), it.text) for it in of_code('/// Doubles.\npub fn twice(a: u8) -> u8\n    ensures is { result ≡ 2 * a }\n{\n    once(a) * 2 // {\n}')]
    [('!twice', 'pub fn twice ( a : u8 ) - > u8 ensures is { result ≡ 2 * a }')]
    >>> [(it.names, it.text) for it in of_code("fn once(a: u8) -> u8 { a } pub(crate) fn other() {} pub struct Pair<'a> { one: &'a u8, pub two: u8 } struct Three;")]
    [(('Pair',), "pub struct Pair < 'a > { pub two : u8 , }"), (('?Pair',), "pub struct Pair < 'a > { one : & 'a u8 , pub two : u8 }"), (('?Three',), 'struct Three ;')]
    >>> [(it.names, it.text) for it in of_code("impl<T> Pair<T> { #[inline] fn one() { '}' } pub fn other(&self) { \"}\" } } impl Copy for Pair { fn one() { 1 } }")]
    [(('Pair::other',), 'impl < T > Pair < T > pub fn other ( & self )'), (('Pair', '.other'), 'impl < T > Pair < T > pub fn other ( & self )'), (('Pair', 'Copy'), 'impl Copy for Pair fn one ( )')]
    >>> [(it.names, it.text) for it in of_code('use std::io; trait Table { fn size(&self) -> u8; } pub const LIMIT: u8 = size(); const fn size() -> u8 { 9 }')]
    [(('Table',), 'trait Table fn size ( & self ) - > u8 ;'), (('LIMIT',), 'pub const LIMIT : u8 = size ( ) ;'), (('!size',), 'const fn size ( ) - > u8 { 9 }')]
    >>> [it.names for it in of_code('impl Four for [u8; 4] { fn four(&self) -> u8 { self[3] } } fn once() {}', False)]
    [('u8', 'Four'), ('once',)]
    >>> sorted(of_code('use one::Two as Three; pub fn four(it: Three) {}')[0].words & {'Two', 'one'})
    ['Two', 'one']
    >>> sorted(it for part in of_code('pub struct Pair { one: Three }') for it in part.words if it.endswith('Three'))
    ['!Three', '?Three', 'Three']
    >>> sorted(words_of('use one::Two as Three; fn four(it: Three) ensures { five it } { Three::new(it.six()) }') & {'five', '!five', 'Two::new', '.six', '!six'})
    ['!six', '.six', 'Two::new', 'five']
    """
    known = aliases(text)
    return [Part(names, ' '.join(told), as_meant(names, with_aliases(named_in(told), known))) for names, told in code_parts(pieces(text), from_above, ())]


def as_meant(names, words):
    """The words of a part; where definitions and clauses alone speak of it, they speak of what stands in it, too."""
    return words | {MEANT_MARK + it for it in words if it[0] not in CODE_MARK + MEANT_MARK} if any(it.startswith(MEANT_MARK) for it in names) else words


def without_comments(text):
    return ''.join(it for it in DEFINITION.findall(text) if not it.startswith('--'))


def called(name, module):
    """What names a definition: its name or its symbols, and its module; what stands in a part with parameters of its own, the module alone."""
    return (module,) if name == 'module' else (*(it for it in name.split('◌') if it), module)


def of_definitions(text, module):
    r"""The parts of definitions: each with all of its clauses. Who names one names its module, too.

    >>> [(it.names, it.text) for it in of_definitions('use A.{b as c}\n-- the sum\nabbrev pub sum : ℕ\nsum = a-c\n    + "--"  -- of two\npub record Both : Type 0 where\n  pub one : ℕ', 'Sums')]
    [(('sum', 'Sums'), 'abbrev pub sum : ℕ sum = a-c + "--"'), (('Both', 'Sums'), 'pub record Both : Type 0 where pub one : ℕ')]
    """
    known, found, last = aliases(text, False), {}, None
    for clause in re.split(r'\n(?=\S)', without_comments(text)):
        words = clause.split()
        name = next((it for it in words if it not in BEFORE), None)
        if name not in (None, 'use', 'mod'):
            last = name if name in found or last is None or name == 'module' or words[:1] != [name] or words[1:2] == [':'] else last
            found.setdefault(last, []).extend(words)
    parts = {name: with_aliases({module, *BETWEEN.split(' '.join(words))}, known) for name, words in found.items()}
    return [Part(called(name, module), ' '.join(words), parts[name] | {MEANT_MARK + it for it in parts[name]}) for name, words in found.items()]


def whole(path):
    """A file without comments, blanks folded."""
    text = path.read_text()
    return ' '.join(pieces(text) if path.suffix == '.rt' else without_comments(text).split())


def words_of(text):
    """What stands in a text of code."""
    return with_aliases(named_in(pieces(text)), aliases(text))


def parts(path, from_above):
    """The parts of a file, as a crate above it sees it, or its own."""
    text = path.read_text()
    return of_code(text, from_above) if path.suffix == '.rt' else of_definitions(text, path.stem)
