"""Edits that make a wrong build: the first line of a file `X.edit` says what is wrong in it; then come `file:` lines, each with one
or more pairs of an `old:` line and a `new:` line below it. The old text must stand exactly once in the file, as rt asks too."""


class BadEdit(Exception):
    """An edit that cannot be read, or whose old text does not stand once where it says."""


def read(edit):
    """What an edit says is wrong, and its replacements in order: file, old text, new text."""
    says, *lines = edit.read_text().rstrip('\n').split('\n')
    found, file, old = [], None, None
    for line in lines:
        key, _, text = line.partition(':')
        text = text.removeprefix(' ')
        if key == 'file' and old is None:
            file = text
        elif key == 'old' and file and old is None and text:
            old = text
        elif key == 'new' and old is not None and text != old:
            found.append((file, old, text))
            old = None
        else:
            raise BadEdit(f'{edit.name}: not to be read at: {line}')
    if not found or old is not None or says.partition(':')[0] in ('', 'file', 'old', 'new'):
        raise BadEdit(f'{edit.name}: it lacks a first line that says it, or a pair')
    return says, found


def made(edit, folder):
    """The texts that an edit makes of the files of a folder, each by its path there."""
    texts = {}
    for file, old, new in read(edit)[1]:
        if not (folder / file).is_file():
            raise BadEdit(f'{edit.name}: there is no file {file}')
        text = texts[file] if file in texts else (folder / file).read_text()
        if text.count(old) != 1:
            raise BadEdit(f'{edit.name}: its old text stands {text.count(old)} times in {file}')
        texts[file] = text.replace(old, new)
    return texts


def apply(edit, folder):
    """Makes an edit in a folder."""
    for file, text in made(edit, folder).items():
        (folder / file).write_text(text)
