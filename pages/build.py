#!/usr/bin/env python3
"""Builds the pages of pages/src, each into one file that opens from the disk: the modules in the order of their imports, the style, and the page around them.

usage: pages/build.py [--check] [--modules FOLDER] [--to FOLDER] [timeline] [playground] [storm]

timeline is pages/timeline.html, and all that is built where no page is named. playground, which runs scripts and programs, and storm, which runs the simulation of
examples/storm, also have the modules of WebAssembly that packaging/wasm.py made (packaging/out/wasm, or FOLDER): they are written to pages where those were
proved, and else to pages/out, and the other FOLDER takes any. Each module's imports are dropped and its exports made plain, so all stand in one scope: a name that
two modules declare is refused. With --check nothing is written, and the status is 1 where pages/timeline.html is not what the sources build.
"""
import argparse
import base64
import gzip
import json
import os
import re
import sys

HERE = os.path.dirname(os.path.abspath(__file__))
SOURCES = os.path.join(HERE, 'src')
EXAMPLES = os.path.join(HERE, 'examples')
CRATES = os.path.join(HERE, os.pardir, 'crates')
PAGE = os.path.join(HERE, 'timeline.html')
MADE = os.path.join(HERE, os.pardir, 'packaging', 'out', 'wasm')
ROOTS = {'timeline': 'app.js', 'playground': 'playground.js', 'storm': 'storm.js'}
# The modules of WebAssembly, the examples and the further style that each page has.
CARRIED = {'timeline': (), 'playground': ('mdb', 'mdb_auditor', 'mdb_recorded', 'mdb_fleet', 'mdb_proxy'), 'storm': ('storm',)}
SHOWN = {'timeline': '.log', 'playground': '.script', 'storm': '/'}
# The stored inputs of the programs, by the names that the playground gives them.
STORED = {'judged.log': 'mdb_auditor', 'findings.jsonl': 'mdb_recorded', 'members.fleet': 'mdb_fleet', 'shares.proxy': 'mdb_proxy'}
IMPORT = re.compile(r"^import [^;]*? from '\./(\w+\.js)';\n", re.MULTILINE)
EXPORT_LIST = re.compile(r'^export \{[^}]*\};\n', re.MULTILINE)
DECLARED = re.compile(r'^(?:export )?(?:async )?(?:function|class|const|let) (\w+)', re.MULTILINE)
INCLUDED = re.compile(r'^<!--(\w+\.html)-->\n', re.MULTILINE)
LEVEL = 9  # of packing


def read(name, folder=SOURCES):
    with open(os.path.join(folder, name), encoding='utf-8') as file:
        return file.read()


def in_order(name, found):
    """The modules that a module needs, each before those that need it."""
    if name in found:
        return found
    found[name] = None  # so that a circle ends
    for needed in IMPORT.findall(read(name)):
        in_order(needed, found)
    found[name] = found.pop(name)
    return found


def plain(name, owners):
    text = read(name)
    for declared in DECLARED.findall(text):
        if owners.setdefault(declared, name) != name:
            raise SystemExit('%s is declared by %s and by %s' % (declared, owners[declared], name))
    text = EXPORT_LIST.sub('', IMPORT.sub('', text))
    return '// %s\n' % name + re.sub(r'^export ', '', text, flags=re.MULTILINE)


def data(texts):
    """Texts that a page carries, as a script of JSON."""
    return json.dumps(texts, indent=0).replace('</', '<\\/')


def built(name='timeline', more=None):
    """A page, with its modules and texts; `more` replaces further places of its frame."""
    owners = {}
    modules = [plain(it, owners) for it in in_order(ROOTS[name], {})]
    script = "'use strict';\n(() => {\n" + '\n'.join(modules) + '})();'
    page = INCLUDED.sub(lambda found: read(found[1]), read(name + '.html'))
    examples = {it: read(it, EXAMPLES) for it in sorted(os.listdir(EXAMPLES)) if it.endswith(SHOWN[name])}
    if name == 'playground':
        examples.update({it: read('stdin', os.path.join(CRATES, program)) for it, program in STORED.items()})
    own = name + '.css'
    style = read('page.css') + (read(own) if os.path.exists(os.path.join(SOURCES, own)) else '')
    places = {'/*STYLE*/': style, '/*SCRIPT*/': script.replace('</script', '<\\/script'), '/*EXAMPLES*/': data(examples), **(more or {})}
    for place, text in places.items():
        page = page.replace(place, text)
    return page


def write(path, text):
    os.makedirs(os.path.dirname(path), exist_ok=True)
    with open(path, 'w', encoding='utf-8', newline='\n') as file:
        file.write(text)
    print('%s: %d bytes' % (os.path.relpath(path), len(text.encode())))


def carried(name, folder):
    """The modules of a page, packed, and what is said of each."""
    packed, about = {}, {}
    for module in CARRIED[name]:
        with open(os.path.join(folder, module + '.wasm'), 'rb') as file:
            packed[module] = base64.b64encode(gzip.compress(file.read(), LEVEL, mtime=0)).decode()
        with open(os.path.join(folder, module + '.json'), encoding='utf-8') as file:
            made = json.load(file)
        about[module] = {key: made[key] for key in ('commit', 'changed', 'proved', 'compiler', 'lowered')}
    return packed, about


def page_with_modules(name, modules, folder):
    packed, about = carried(name, modules)
    is_whole = all(it['proved'] and not it['changed'] for it in about.values())
    write(os.path.join(folder or (HERE if is_whole else os.path.join(HERE, 'out')), name + '.html'), built(name, {'/*MODULES*/': data(packed), '/*ABOUT*/': data(about)}))


def main():
    reader = argparse.ArgumentParser(description=__doc__, formatter_class=argparse.RawDescriptionHelpFormatter)
    reader.add_argument('--check', action='store_true', help='write nothing, and say whether the timeline is up to date')
    reader.add_argument('--modules', default=MADE, help='what packaging/wasm.py made')
    reader.add_argument('--to', help='the folder for the pages')
    reader.add_argument('pages', nargs='*', metavar='PAGE', help=', '.join(ROOTS))
    given = reader.parse_args()
    if given.check:
        with open(PAGE, encoding='utf-8') as file:
            return 0 if file.read() == built() else 1
    for name in given.pages or ['timeline']:
        if name not in ROOTS:
            reader.error('no page ' + name)
        if CARRIED[name]:
            page_with_modules(name, given.modules, given.to)
        else:
            write(os.path.join(given.to, 'timeline.html') if given.to else PAGE, built())
    return 0


if __name__ == '__main__':
    sys.exit(main())
