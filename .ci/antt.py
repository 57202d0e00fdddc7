"""Reading crates.txt, and antt as far as the lints need it: a text without its comments, what its `use` lines bring, what it
unfolds, and where a path leads. Where antt itself would have to be asked, more is seen than may be there, never less."""
import functools
import pathlib
import re

top = pathlib.Path(__file__).resolve().parent.parent
OURS = 'Rattle.'
# A word is a run of other characters than these, or escaped; a path is words with dots between.
BREAKS = r'\s(){}.;,@"«»'
WORD = rf'(?:«[^»]*»|[^{BREAKS}]+)'
PATH = rf'{WORD}(?:\.{WORD})*'
BEGIN, END = rf'(?<![^{BREAKS}])', rf'(?![^{BREAKS}])'


def dependencies():
    """The crates of crates.txt, each with the crates that it names."""
    lines = [line.split('#')[0] for line in (top / 'crates.txt').read_text().split('\n')]
    return {name.split()[0]: deps.split() for name, deps in (line.split(':') for line in lines if ':' in line)}


def handed_on(file):
    """What a crate's root hands on by `pub use`, alone or in braces: pairs of a crate and a name."""
    uses = re.findall(r'^pub use (\w+)::(?:\{([^}]*)\}|(\w+));', file.read_text(), re.M)
    return [(crate, name.strip()) for crate, several, one in uses for name in (several or one).split(',') if name.strip()]


def bare(file):
    """The text of a file with its comments blanked, so that every line and column stays."""
    mark = '//' if file.suffix == '.rt' else rf'{BEGIN}--(?=[\s-])'
    comment = re.compile(rf'"(?:\\.|[^"\\\n])*"|\{{-.*?-\}}|{mark}[^\n]*', re.S)
    return comment.sub(lambda m: m[0] if m[0][0] == '"' else re.sub(r'\S', ' ', m[0]), file.read_text())


def words(path):
    """The words of a path, `package` before it left out. A crate's name is one word with the `Rattle.` before it."""
    found = [word.strip('«»') for word in re.findall(WORD, path)]
    found = found[1:] if found[0] == 'package' else found
    return [OURS + found[1]] + found[2:] if found[0] == OURS[:-1] and len(found) > 1 else found


def is_ours(crate):
    """Whether a crate stands in this repository: the library's own begin with `Rattle.` too."""
    return (top / 'crates' / crate).is_dir()


def crate_of(path):
    """The crate that a whole path begins in, if it is one of ours."""
    return path[0][len(OURS):] if path[0].startswith(OURS) and is_ours(path[0][len(OURS):]) else None


def unfolded(text):
    """What a bare text unfolds, by `unfolding` or by `unfold .. in`: the number of the line and the words of the path."""
    found = [(m.start(1), m.end(1)) for m in re.finditer(rf'{BEGIN}unfold{END}(.*?){BEGIN}in{END}', text, re.S)]
    for m in re.finditer(rf'{BEGIN}unfolding{END}', text):
        column = m.start() - text.rfind('\n', 0, m.start()) - 1
        # the line, and those below it that stand further in
        found.append((m.end(), re.compile(rf'[^\n]*(?:\n *(?=\n)|\n {{{column + 1},}}\S[^\n]*)*').match(text, m.end()).end()))
    for start, end in sorted(found):
        for path in re.compile(PATH).finditer(text, start, end):
            yield text.count('\n', 0, path.start()) + 1, words(path[0])


class Module:
    """A file with what its `use` lines bring, by the name that it has there: items, modules, and modules below it with all names."""

    def __init__(self, file):
        self.text, self.items, self.modules, self.globs = bare(file), {}, {}, []
        parts = file.relative_to(top / 'crates').with_suffix('').parts
        self.path = [OURS + parts[0], *(part for part in parts[1:] if part != 'Lib')]
        self.children = set(re.findall(rf'{BEGIN}mod\s+({WORD})', self.text))
        for path, items, alias in re.findall(rf'{BEGIN}use\s+({PATH})(?:\.\{{([^}}]*)\}}|\s+as\s+({WORD}))?', self.text):
            if path.endswith('.*'):
                self.globs.append(words(path)[:-1])
            elif items:
                for item in filter(str.strip, items.split(',')):
                    name, *other = re.split(r'\s+as\s+', item.strip())
                    self.items[words(other[0] if other else name)[-1]] = words(path) + words(name)
            else:
                self.modules[words(alias or path)[-1]] = words(path)

    def whole(self, path):
        """A path of this file from its library on: its first word may be another module's name here, or a module below."""
        for _ in self.modules:
            if self.modules.get(path[0], path)[0] == path[0]:
                break
            path = self.modules[path[0]] + path[1:]
        return self.path + path if path[0] in self.children else path

    def brought(self, path):
        """The whole path of what this file writes so; nothing if it is the file's own."""
        if path[0].startswith(OURS):
            return path
        if len(path) > 1:
            return self.whole(path) if path[0] in self.modules or path[0] in self.children else self.member(path)
        return self.member(path) or self.globbed(path)

    def member(self, path):
        return self.whole(self.items[path[0]]) + path[1:] if path[0] in self.items else None

    def globbed(self, path):
        below = (module(file) for file in map(file_of, map(self.whole, self.globs)) if file)
        return next(filter(None, (one.brought(path) for one in below)), None)


module = functools.cache(Module)


def file_of(path):
    """The file of a module of ours, by its whole path, if there is one."""
    if crate_of(path) and len(path) > 1:
        folder = (top / 'crates' / crate_of(path)).joinpath(*path[1:-1])
        return next((file for file in (folder / f'{path[-1]}.antt', folder / path[-1] / 'Lib.antt') if file.is_file()), None)


def follow(path):
    """Where a whole path leads in the end: what a module has from another by `pub use` is followed there."""
    for length in range(2, len(path)):
        file = file_of(path[:length])
        further = file and module(file).brought(path[length:])
        if further and further != path:
            return follow(further)
    return path
