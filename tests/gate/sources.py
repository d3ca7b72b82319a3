"""What the gate's checks read: the crates' public functions, their must-fail edits, and the tables of docs/PROMISES.md."""
import re
from collections import namedtuple
from pathlib import Path

ROOT = Path(__file__).resolve().parents[2]
CRATES = ROOT / 'crates'

Function = namedtuple('Function', 'crate name exported requires ensures')
Row = namedtuple('Row', 'kind names crates promise edits')


def read(path):
    return path.read_text(encoding='utf-8')


def crate_names():
    return sorted(path.name for path in CRATES.iterdir() if path.is_dir())


# ---- functions. This relies on the layout that `rt ci` checks: a clause begins a line, and so does the body's brace.

def clauses(head, word):
    """The clauses that begin with a word, each with its continuation lines."""
    found, inside = [], False
    for line in head:
        text = line.strip()
        if re.match(r'(requires|ensures)\b', text):
            inside = text.startswith(word)
            if inside:
                found.append('')
        if inside:
            found[-1] += text + ' '
    return found


def head_of(lines, first):
    """The lines of a function from its name to the brace that opens its body, or to the semicolon of one in a trait."""
    head = []
    for line in lines[first:]:
        text = line.strip()
        clause = re.match(r'(requires|ensures)\b', text)
        if text == '{' or (text.endswith('{') and not clause) or text == '{}' or text.endswith(';'):
            return head + [line]
        head.append(line)
    raise SystemExit(f'no body: {lines[first]}')


def sources_of(crate):
    """The lines of each source file of a library, without comments; a program has none."""
    source = CRATES / crate / 'src'
    if (source / 'lib.rt').exists():
        for path in sorted(source.rglob('*.rt')):
            yield [re.sub(r'//.*', '', line) for line in read(path).split('\n')]


def traits():
    """The clauses of each function of our own traits, by the names of both."""
    found = {}
    for crate in crate_names():
        for lines in sources_of(crate):
            trait = None
            for number, line in enumerate(lines):
                if block := re.match(r'pub trait (\w+)', line):
                    trait = block.group(1)
                elif line == '}':
                    trait = None
                if trait and (name := re.match(r'\s*fn (\w+)', line)):
                    head = head_of(lines, number)
                    found[trait, name.group(1)] = (clauses(head, 'requires'), clauses(head, 'ensures'))
    return found


TRAITS = traits()


def functions_of(crate):
    """The public functions of a library, and those that it gives to our own traits."""
    for lines in sources_of(crate):
        owner, trait, members = '', None, {}
        for number, line in enumerate(lines):
            if block := re.match(r'impl\b(?:<[^>]*>)?(?: (\w+)(?:<[^>]*>)? for)?.*?(\w+)(?:<[^>]*>)? \{', line):
                owner, trait, members = block.group(2) + '::', block.group(1), {}
            elif line == '}':
                owner, trait = '', None
            if member := re.match(r'\s*ghost (\w+) = \{ (\S+) \};', line):
                members[member.group(1)] = member.group(2)
            if found := re.match(r'\s*pub (?:const |unsafe )*(extern "C" )?fn (\w+)', line):
                head = head_of(lines, number)
                yield Function(crate, owner + found.group(2), bool(found.group(1)), clauses(head, 'requires'), clauses(head, 'ensures'))
            elif (found := re.match(r'\s*fn (\w+)', line)) and (trait, found.group(1)) in TRAITS:
                # what the trait says, of this type's ghost members
                requires, ensures = (
                    [re.sub(r'\w+', lambda word: members.get(word[0], word[0]), clause) for clause in of]
                    for of in TRAITS[trait, found.group(1)])
                yield Function(crate, owner + found.group(1), False, requires, ensures)


def functions():
    return [function for crate in crate_names() for function in functions_of(crate)]


def promises(function, name):
    """Whether a clause is this promise, or says that the result is this definition, without a premise."""
    promise = re.compile(rf'ensures(?: \w+)? {{ (?:result ≡ \(?)?{re.escape(name)} [^→⊎]*$')
    return any(promise.match(clause) for clause in function.ensures)


def statements_of(function):
    """The statements that a `proved` promises: each without a premise, and for all values of its binders."""
    statement = re.compile(r'ensures(?: \w+)? { (?:(?:\([^():]+ : [^():]+\) )+→ )?([^\s()→]+)[^→⊎]* }(?: {}?)? $')
    for clause in function.ensures:
        found = statement.match(clause)
        yield found.group(1) if found else clause.strip()


# ---- must-fail edits

def edits():
    """The file of each edit, by crate and name."""
    return {(path.parts[-3], path.stem): path for path in sorted(CRATES.glob('*/must-fail/*.edit'))}


def expected(path):
    """Where an edit says that it must be refused: a file and a declaration."""
    found = re.findall(r'^# expect: (\S+) (\S+)$', read(path), re.M)
    return found[0] if len(found) == 1 else None


# ---- docs/PROMISES.md. The first cell of a table's head says which table it is.

KINDS = {'Operation': 'operation', 'Statement': 'statement', 'Inner function': 'inner', 'Wrong program': 'wrong'}


def words(cell):
    """The words between backticks."""
    return re.findall(r'`([^`]+)`', cell)


def tables():
    """Each row of each table: the name of its first column, and its cells by the names of their columns."""
    columns = None
    for line in read(ROOT / 'docs' / 'PROMISES.md').split('\n'):
        if not line.startswith('|'):
            columns = None
            continue
        cells = [cell.strip() for cell in line.strip().strip('|').split('|')]
        if columns is None:
            columns = cells
        elif not re.fullmatch(r'[-:]+', cells[0]):
            yield columns[0], dict(zip(columns, cells))


def rows():
    """The rows of the tables of operations, statements, inner functions and wrong programs."""
    for first, cells in tables():
        if first in KINDS:
            yield row_of(KINDS[first], cells, first)


def definitions():
    """The rows of the tables of document 01's rules and checks: the definitions, and the file that has them."""
    for first, cells in tables():
        if first == 'Document 01':
            yield words(cells['Definition']), words(cells['File'])[0]


def row_of(kind, cells, first):
    crates = words(cells.get('Crate', ''))
    names = [name.split('(')[0] for name in words(cells[first])]
    listed = words(cells.get('Must-fail edits', '') + cells.get('Tried as', ''))
    if kind != 'wrong' and not crates:
        raise SystemExit(f'docs/PROMISES.md names no crate in the row of {cells[first]}')
    edits = [tuple(edit.split('/')) if '/' in edit else (crates[0] if crates else '', edit) for edit in listed]
    return Row(kind, names, crates, words(cells.get('Promise', '')), edits)
