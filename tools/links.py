#!/usr/bin/env python3
"""Tells which links of the pages lead nowhere, and which crates, files, functions and words in them aren't there.
usage, at the top of the repository: tools/links.py

It looks at README.md and docs: each link to a file and to a heading; each path in backquotes that begins with crates/,
docs/ or tools/; and each row of a table of docs/developers/ways.md and docs/developers/crates whose first cell is a
crate: the files of its second cell are to stand in that crate or its src, and the words of its third cell, by name, in
one of those files. A block of Rust is to stand, line by line, in the last file of crates/ that was named before it.
Each crate is to have its line in MAP, and those of code in README and ways.md too."""
import glob, os, re, sys

PAGES = ['README.md'] + sorted(glob.glob('docs/**/*.md', recursive=True))
faults = []
def tell(page, what): faults.append(f'{page}: {what}')
def read(path): return open(path, encoding='utf8').read()
def slug(heading):
    return re.sub(r'[^\w\- ]', '', heading.strip().lower().replace('`', '')).replace(' ', '-')
def headings(path): return {slug(h) for h in re.findall(r'(?m)^#+ (.*)$', read(path))}

def check_links(page, text):
    for target in re.findall(r'\]\(([^)\s]+)\)', re.sub(r'(?m)^    .*$', '', text)):
        if target.startswith(('http:', 'https:')): continue
        path, _, part = target.partition('#')
        path = os.path.normpath(os.path.join(os.path.dirname(page), path)) if path else page
        if not os.path.exists(path): tell(page, f'no {target}')
        elif part and part not in headings(path): tell(page, f'no heading {target}')
    for path in re.findall(r'`((?:crates|docs|tools)/[\w./*-]+)', text):
        if '/out' not in path and '*' not in path and 'NAME' not in path and not os.path.exists(path.rstrip('.')):
            tell(page, f'no {path}')

def check_row(page, crate, files, words):
    texts = []
    for file in re.findall(r'`([\w./-]+)`', files):
        found = [p for p in (f'crates/{crate}/{file}', f'crates/{crate}/src/{file}') if os.path.isfile(p)]
        if not found: tell(page, f'{crate} has no {file}')
        texts += map(read, found)
    for word in re.findall(r'`([\w:]+)`', words):
        name = word.split('::')[-1]
        if not any(re.search(rf'\b{name}\b', text) for text in texts): tell(page, f'{crate}: no {word} in {files}')

def check_quotes(page, text):
    for part in re.finditer(r'```rust\n(.*?)```', text, re.S):
        path = re.findall(r'`(crates/[\w/]+\.rt)`', text[:part.start()])[-1]
        lines = {line.strip() for line in read(path).split('\n')}
        for line in filter(None, map(str.strip, part.group(1).split('\n'))):
            if line not in lines: tell(page, f'{path} has no line {line}')

for page in PAGES:
    text = read(page)
    check_links(page, text)
    if '/crates/' in page: check_quotes(page, text)
    if page == 'docs/developers/ways.md' or '/crates/' in page:
        for line in text.split('\n'):
            cells = [c.strip() for c in line.strip('|').split('|')] if line.startswith('|') else []
            cells = cells[1:] if cells and re.fullmatch(r'\d+[a-z]?', cells[0]) else cells
            if len(cells) > 2 and os.path.isdir(f'crates/{cells[0]}'): check_row(page, *cells[:3])
def check_crates():
    """Each crate has its row on the map, and each but those of tests in README and in the picture of the layers."""
    crates = sorted(c for c in os.listdir('crates') if os.path.isdir(f'crates/{c}/src'))
    for page, left_out in (('docs/developers/MAP.md', r'$^'), ('README.md', '_tests$'),
                           ('docs/developers/ways.md', '_tests$|^worked_cases$')):
        text = read(page)
        for crate in crates:
            if not re.search(left_out, crate) and not re.search(rf'\b{crate}\b', text): tell(page, f'no line for {crate}')

check_crates()
print('\n'.join(faults) or f'{len(PAGES)} pages: all is there')
sys.exit(bool(faults))
