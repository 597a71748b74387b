"""Writes what the pages say of the definitions, from the first comment of each file of specs/: `python3 tools/specs.py`,
or `python3 tools/specs.py --check`, which writes nothing and fails where a page is not what the files give.

A crate's own page (crates/NAME/README.md) has a row for each of its files: the first sentence says what the file defines;
the last column is the section of the WebAssembly core specification that the comment names, or "own" where it says that
it is this project's own. docs/DEFINITIONS.md has the sections, each with the files that define it.
"""
import pathlib
import re
import sys

TOP = pathlib.Path(__file__).resolve().parent.parent
ALL = TOP / 'docs' / 'DEFINITIONS.md'
BEGIN, END = '<!-- specs: begin -->\n', '<!-- specs: end -->\n'
CHAPTERS = ('Structure', 'Types', 'Validation', 'Execution', 'Soundness', 'Binary format', 'Text format')
OWN = re.compile(r"[;:,.] *(?:and )?(?:all of it is )?this project's own(?: choice of limits| format)?(?=[.,:;]|$)", re.I)


def crates():
    """The crates, lowest first."""
    lines = (TOP / 'crates.txt').read_text(encoding='utf-8').splitlines()
    return [line.split(':')[0].split()[0] for line in lines if re.match(r'[a-z_]+', line)]


def files(crate):
    """The files of definitions of a crate, each with its first comment."""
    paths = sorted((TOP / 'crates' / crate / 'specs').glob('*.antt'))
    return [(path.stem, first_comment(path)) for path in paths if path.stem != 'Lib']


def first_comment(path):
    """The comment at the head of a file, as one line."""
    words = []
    for line in path.read_text(encoding='utf-8').splitlines():
        if not line.startswith('--'):
            break
        words.append(line[2:].strip())
    return ' '.join(words)


def first_sentence(comment):
    """What the file defines: the first sentence, without the words on where it is from."""
    text = re.split(r'(?<=[a-z0-9`)"])\.(?: |$)', OWN.sub('', comment), maxsplit=1)[0]
    text, named, _ = text.partition('WebAssembly core specification')
    if named and re.search(r'(?: the|,) *$', text):
        text = re.split(r'[;:](?=[^;:]*$)', text)[0]  # without the words that lead to the name of the section
    return text.strip(' .:;').replace('|', '\\|')


def sections(comment):
    """The sections of the core specification that a comment names."""
    found = re.findall(r'WebAssembly core specification,((?:(?:,| and| to)? "[^"]+")+)', comment)
    named = [section.strip(', ') for listed in found for section in re.findall(r'"([^"]+)"', listed)]
    return list(dict.fromkeys(named))


def source(comment):
    own = 'own' if "this project's own" in comment.lower() else ''
    return '; '.join(sections(comment)) or own


def table_of(crate):
    rows = ['| file | defines | section |', '|---|---|---|']
    rows += [f'| `{name}` | {first_sentence(comment)} | {source(comment)} |' for name, comment in files(crate)]
    return '\n'.join(rows) + '\n'


def table_of_sections():
    """Each section that a file names, by chapters, with the files."""
    places = {}
    for crate in crates():
        for name, comment in files(crate):
            for section in sections(comment):
                chapter, _, rest = section.partition(', ')
                if chapter.capitalize() not in CHAPTERS:  # its heading alone
                    chapter, rest = 'Execution', section
                key = (CHAPTERS.index(chapter.capitalize()), rest.lower() or 'all of it')
                places.setdefault(key, {}).setdefault(crate, []).append(name)
    rows = ['| chapter | section | files |', '|---|---|---|']
    shown = ''
    for (place, section), found in sorted(places.items()):
        listed = '; '.join(f'[{crate}](../crates/{crate}/README.md): ' + ', '.join(names) for crate, names in found.items())
        rows.append(f'| {"" if place == shown else CHAPTERS[place]} | {section} | {listed} |')
        shown = place
    return '\n'.join(rows) + '\n'


def renewed(page, table):
    """The text of a page with this table between its marks."""
    head, rest = page.read_text(encoding='utf-8').split(BEGIN)
    return head + BEGIN + '\n' + table + '\n' + END + rest.split(END)[1]


def main():
    new = {ALL: renewed(ALL, table_of_sections())}
    for crate in crates():
        page = TOP / 'crates' / crate / 'README.md'
        if files(crate):
            new[page] = renewed(page, table_of(crate))
    old = [page for page, text in new.items() if text != page.read_text(encoding='utf-8')]
    if '--check' in sys.argv[1:]:
        names = ', '.join(str(page.relative_to(TOP)) for page in old)
        sys.exit(f'{names}: old; run python3 tools/specs.py' if old else 0)
    for page in old:
        page.write_text(new[page], encoding='utf-8')


main()
