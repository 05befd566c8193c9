#!/usr/bin/env python3
"""Tells which definitions the public clauses rest on, and whether docs/developers/DEFINITIONS.md lists them.
usage, at the top of the repository: tools/definitions.py

It looks at words and proves nothing: a word of a clause is that of the import, or of the file's own, of that name.
Public are the clauses of what a crate's lib.rt hands out and of main.rt, what contracts see of a type (Value and
view), and the ghost members of traits. Crates of tests are left out, and so are the lists of modules, Lib.antt and
Inner.antt. What no public clause reaches is to stand in specs/Inner."""
import collections, glob, re

# ghost members of a type that say nothing to its callers
SILENT = {'invariant', 'laws', 'exact', 'same_reference', 'inverse', 'inverse_ok', 'is_clone', 'is_infallible',
          'from_gives', 'eq', 'coded'}
USE = re.compile(r'(?m)^\s*(?:pub )?(?:ghost )?use\s+(?:Rattle\.)?([\w.\-]+?)(?:\.\{([^}]*)\}|\s+as\s+(\w+))?\s*;?\s*$')
TOKEN = re.compile(r'[^\s(){}\[\],;.]+(?:\.[^\s(){}\[\],;.]+)*')
ATTRIBUTE = r'(?:(?:abbrev|pub|opens|may|unfoldable|infixr \d+|infixl \d+|infix \d+)\s+)*'

def crate_of(path): return path.split('/')[1]
def is_test(path): return crate_of(path).endswith('_tests')
def read(path): return open(path, encoding='utf8').read()
def module_of(path): return path[len('crates/'):-len('.antt')].replace('/', '.')

def imports_of(text):
    """What each imported word stands for: its module, and its name there, which a module by itself has not."""
    text = re.sub(r'(use [^\n{;]*\{)([^}]*)\}', lambda m: m.group(1) + m.group(2).replace('\n', ' ') + '}', text)
    found = {}
    for module, names, alias in USE.findall(text):
        for item in filter(None, (n.strip() for n in names.split(','))):
            word, _, other = item.partition(' as ')
            found[other.strip() or word.strip()] = (module, word.strip())
        if alias: found[alias] = (module, None)
    return found

class Definitions:
    def __init__(self):
        self.files, self.imports, self.words = {}, {}, collections.defaultdict(list)
        self.tokens = {}
        for path in glob.glob('crates/*/specs/**/*.antt', recursive=True):
            if not is_test(path) and not path.endswith(('/Lib.antt', '/Inner.antt')): self.add(path)

    def add(self, path):
        module, text = module_of(path), read(path)
        self.files[module], self.imports[module] = path, imports_of(text)
        sections, word, inside = set(), None, -1
        for line in text.split('\n'):
            stripped = line.strip()
            if not stripped or stripped.startswith('--') or re.match(r'(pub )?use ', stripped): continue
            if stripped.startswith('module _'): sections |= set(TOKEN.findall(line)); word, inside = None, -1; continue
            indent = len(line) - len(line.lstrip())
            if indent <= inside: inside = -1
            if inside < 0 and re.match(r'(abbrev|pub|record|data|unfoldable|opens|infix)\b', stripped):
                if re.match(ATTRIBUTE + r'record\b', stripped): inside = indent
                word = re.match(ATTRIBUTE + r'(?:(?:record|data)\s+)?([^\s(){}:=]+)', stripped).group(1)
                self.words[module].append(word)
                self.tokens.setdefault((module, word), set()).update(sections)
            if word: self.tokens[(module, word)] |= set(TOKEN.findall(line))

    def meant(self, tokens, imports, module):
        """The definitions that these tokens stand for."""
        found = set()
        for token in tokens:
            first, _, rest = token.partition('.')
            if (module, first) in self.tokens: found.add((module, first))
            if first in imports:
                home, name = imports[first]
                found.add((home, name or rest.split('.')[0]))
        operators = [(n, home) for n, home in imports.items() if '◌' in n]
        operators += [(n, (module, n)) for n in self.words.get(module, ()) if '◌' in n]
        return found | {home for name, home in operators if name.replace('◌', '') in tokens}

    def behind(self, start):
        """All that these rest on."""
        seen, left = set(), list(start)
        while left:
            one = left.pop()
            if one in seen or one not in self.tokens: continue
            seen.add(one)
            left += self.meant(self.tokens[one], self.imports[one[0]], one[0])
        return seen

def handed_out(crate):
    names = set()
    for path in glob.glob(f'crates/{crate}/src/lib.rt'):
        for head, many in re.findall(r'(?s)pub use\s+([\w:]+)(?:::\{([^}]*)\})?;', read(path)):
            for item in many.split(',') if many else [head]: names.add(item.split(' as ')[-1].strip().split('::')[-1])
        for module in re.findall(r'(?m)^pub mod (\w+);', read(path)):
            names |= set(re.findall(r'(?m)^pub (?:fn|struct|enum|trait|const) (\w+)', read(f'crates/{crate}/src/{module}.rt')))
    return names

def without_generics(text):
    depth = 0
    if not text.startswith('<'): return text
    for at, byte in enumerate(text):
        depth += (byte == '<') - (byte == '>' and text[at - 1] != '-')
        if depth == 0: return text[at + 1:].strip()
    return text

def owner_of(line):
    """The trait or the type of a block, and the trait that it implements."""
    found = re.match(r'\s*(?:pub )?(impl|trait)\b(.*)', line)
    if not found or '{' not in line: return None
    rest = without_generics(found.group(2).strip())
    if found.group(1) == 'trait': return 'trait', re.match(r'\w+', rest).group(0), None
    made = re.match(r'(?:([\w:]+)(?:<.*?>)? for )?&?(?:mut )?([\w:]+)', rest)
    return 'impl', made.group(2).split('::')[-1], made.group(1)

def end_of(lines, at, owner):
    """The line at which the head of a function ends."""
    indent = re.match(r'\s*', lines[at]).group(0)
    for i in range(at, len(lines)):
        line = lines[i].rstrip()
        if line.endswith('{}') or (re.match(indent + r'\S', line) and line.endswith('{')): return i
        if owner and owner[0] == 'trait' and line.endswith(';'): return i
    return len(lines) - 1

def public_tokens(path, public):
    """The tokens of the public clauses of a file."""
    lines, owner, margin, at, found = read(path).split('\n'), None, '', 0, set()
    while at < len(lines):
        line, last = lines[at], at
        begun = owner_of(line)
        if begun: owner, margin = begun, re.match(r'\s*', line).group(0)
        elif owner and line.rstrip() == margin + '}': owner = None
        function = re.match(r'\s*(pub )?(?:const )?fn (\w+)', line)
        ghost = re.match(r'\s*ghost (\w+)\s*[:=]', line)
        if function:
            last = end_of(lines, at, owner)
            if owner is None: told = function.group(1) and function.group(2) in public
            else: told = owner[1] in public and (function.group(1) or owner[0] == 'trait' or owner[2])
            if told or path.endswith('/main.rt'):
                head = '\n'.join(l for l in lines[at:last + 1] if not l.strip().startswith('//'))
                found |= set(TOKEN.findall(head[min((i for i in map(head.find, ('requires', 'ensures')) if i >= 0),
                                                    default=len(head)):]))
        elif ghost and owner and owner[1] in public and (owner[0] == 'trait' or ghost.group(1) not in SILENT):
            while not lines[last].rstrip().endswith(('}', '};')): last += 1
            found |= set(TOKEN.findall('\n'.join(lines[at:last + 1])))
        at = last + 1
    return found

def rows_of(text):
    """The words of docs/developers/DEFINITIONS.md with the files in which they are said to stand."""
    homes, section = {'The law of the desk': 'desk_law', 'Decks': 'deck_meaning'}, None
    for line in text.split('\n'):
        if line.startswith('## '): section = homes.get(line[3:])
        row = re.match(r'\| (`[^|]*`[^|]*) \| ([^|]+) \|', line)
        if not row: continue
        crate, files = section, []
        for part in row.group(2).split(','):
            named = re.match(r'(?:(\w+)/specs/)?((?:Inner/)?\w+)$', part.strip())
            if not named: continue
            crate = named.group(1) or crate
            files.append(f'{crate}.specs.{named.group(2)}'.replace('/', '.'))
        for word in re.findall(r'`([^`]+)`', row.group(1)): yield word, files

def reached_by_clauses(known):
    start = set()
    for path in glob.glob('crates/*/src/**/*.rt', recursive=True):
        if not is_test(path):
            start |= known.meant(public_tokens(path, handed_out(crate_of(path))), imports_of(read(path)), None)
    return known.behind(start)

def lines_of(known, modules): return sum(read(known.files[m]).count('\n') for m in modules)

def is_inner(module): return '.specs.Inner.' in module

def tell_files(known, shown):
    hidden = set(known.files) - shown
    print(f'{len(shown)} files with {lines_of(known, shown):,} lines are reached by public clauses, '
          f'{len(hidden)} with {lines_of(known, hidden):,} lines are not')
    for module in sorted(shown):
        if is_inner(module): print('reached, and in specs/Inner:', known.files[module])
    for module in sorted(hidden):
        if not is_inner(module): print('not reached, and not in specs/Inner:', known.files[module])

def unreached_words(known, shown, reached):
    return {m: sorted({w for w in known.words[m] if (m, w) not in reached}) for m in sorted(shown)}

def tell_words(known, shown, reached):
    alone = unreached_words(known, shown, reached)
    print(sum(map(len, alone.values())), 'words in the reached files that none reaches:')
    for module, words in alone.items():
        if words: print('   ', known.files[module], *words)

def tell_counted(known, shown, reached):
    """Where the page has other numbers."""
    page = read('docs/developers/DEFINITIONS.md').partition('\n## ')[0]
    hidden = set(known.files) - shown
    words = sum(map(len, unreached_words(known, shown, reached).values()))
    for text in (f'{len(shown)} files of definitions with {lines_of(known, shown):,} lines',
                 f'the other {len(hidden)} files, {lines_of(known, hidden):,} lines',
                 f'In the {len(shown)} files stand {words} '):
        if text not in page: print('not on the page:', text)

def homes_of(known, word, files):
    """Those of the files in which the word is defined; it says where the word stands in none."""
    homes = [m for m in files if word in known.words.get(m, ()) or '◌' + word + '◌' in known.words.get(m, ())]
    fields = [m for m in files if m in known.files and re.search(r'(?<!\w)' + word + r'(?!\w)', read(known.files[m]))]
    if not homes and not fields: print('no such word there:', word, *files)
    return homes

def tell_listed(known, shown, reached):
    public, _, private = read('docs/developers/DEFINITIONS.md').partition('## Words of private clauses')
    listed = set()
    for word, files in rows_of(public):
        listed |= set(files)
        for m in homes_of(known, word, files):
            if word in known.words[m] and (m, word) not in reached: print('listed, and none reaches it:', word, m)
    for word, files in rows_of(private):
        for m in homes_of(known, word, files):
            if (m, word) in reached: print('listed as private, and reached:', word, m)
    for m in sorted(shown - listed): print('reached, and not listed:', known.files[m])

def main():
    known = Definitions()
    reached = reached_by_clauses(known)
    shown = {m for m in known.files if any((m, w) in reached for w in known.words[m])}
    tell_files(known, shown)
    tell_words(known, shown, reached)
    tell_counted(known, shown, reached)
    tell_listed(known, shown, reached)

main()
