"""The lines of cases of a program, as the library mdb_cases reads them."""
import os

CRATES = os.path.join(os.path.dirname(os.path.dirname(os.path.abspath(__file__))), 'crates')


def spelled_out(names, line):
    """The line with its text in the place of each `<NAME>` and of each `<3*,h#:1>`."""
    first, *parts = line.split('<')
    text = first
    for part in parts:
        word, rest = part.split('>', 1)
        times, star, repeated = word.partition('*')
        if star:
            text += ''.join(repeated.replace('#', str(number + 1)) for number in range(int(times)))
        else:
            text += names[word]
        text += rest
    return text


def lines_of(crate):
    """The lines of the crate's stored input but those that name texts, which stand in the others for their names."""
    names = {}
    with open(os.path.join(CRATES, crate, 'stdin'), encoding='utf-8', newline='\n') as file:
        for line in file.read().splitlines():
            if line.startswith('given '):
                name, text = line[len('given '):].split(' ', 1)
                names[name] = spelled_out(names, text)
            else:
                yield spelled_out(names, line) if ' => ' in line else line


def fits(found, wanted):
    """Whether the text is what is wanted, where ` ..` stands for any text."""
    first, *pieces = wanted.split(' ..')
    if not pieces:
        return found == wanted
    if not found.startswith(first):
        return False
    rest = found[len(first):]
    for piece in pieces[:-1]:
        before, there, rest = rest.partition(piece) if piece else ('', 'nothing', rest)
        if not there:
            return False
    return rest.endswith(pieces[-1])
