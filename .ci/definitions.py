#!/usr/bin/env python3
"""Whether docs/definitions/ and the code speak by the same words.

Each definition of specs/ that a public contract names stands in a page of docs/definitions/, in the section of the
crate that defines it; and each word in backticks there is a definition or an item of the code. With --list it prints
the words of each crate instead.
"""
import os, re, sys

top = os.path.dirname(os.path.dirname(os.path.abspath(__file__)))
crates = os.path.join(top, 'crates')
WORD = r"[A-Za-z_◌][A-Za-z0-9_'-]*"


def sources(crate):
    for folder, _, files in os.walk(os.path.join(crates, crate, 'src')):
        for name in sorted(files):
            if name.endswith('.rt') and 'test' not in os.path.relpath(os.path.join(folder, name), crates):
                text = open(os.path.join(folder, name)).read()
                yield text.split('#[cfg(test)]\nmod tests {')[0]


def exported(crate):
    """The names that the crate shows to others; of a program, its main and all that it declares public."""
    root = os.path.join(crates, crate, 'src', 'lib.rt')
    if not os.path.exists(root):
        return None
    text = open(root).read()
    names = set(re.findall(r'^pub (?:fn|struct|enum|trait|const) (%s)' % WORD, text, re.M))
    for group in re.findall(r'^pub use ([^;]*);', text, re.M):
        names.update(re.findall(r'\b(%s)\b' % WORD, group.split('::', 1)[1]))
    return names


def public_clauses(crate):
    """The contracts of what the crate shows: of functions, of methods of types, and of traits."""
    shown = exported(crate)
    for text in sources(crate):
        owner, in_trait = None, False
        head = None
        for line in text.split('\n'):
            block = re.match(r'^(?:pub )?(impl|trait)\b(?:<[^>]*>)? *(?:(%s)(?:<.*>)? for )?(%s)' % (WORD, WORD), line)
            if block:
                owner, in_trait = block.group(3), block.group(1) == 'trait'
            elif line.startswith('}'):
                owner, in_trait = None, False
            start = re.match(r'^ *(pub )?fn (%s)' % WORD, line)
            if start:
                name = owner or start.group(2)
                public = (start.group(1) or in_trait) and (shown is None or name in shown)
                head = [] if public else None
            if head is not None and re.match(r'^ *(requires|ensures|ghost [a-z_]+ =|ghost state)', line):
                head.append(line)
            elif head is not None and head and not re.match(r'^ *(\{|\}|fn |pub fn |;)', line) and line.startswith('     '):
                head.append(line)
            if head is not None and re.match(r'^ *\{|.*;$', line):
                yield '\n'.join(head)
                head = None


def imports(crate):
    """Which crate defines each word that the crate's clauses may use."""
    found = {}
    for text in sources(crate):
        for home, names in re.findall(r'ghost use Rattle\.(\w+)\.specs\.(?!declared)[\w.]*\.\{([^}]*)\};', text):
            for name in names.split(','):
                found[name.strip().split(' as ')[0]] = home
    return found


def definitions(crate):
    words = set()
    folder = os.path.join(crates, crate, 'specs')
    for name in os.listdir(folder) if os.path.isdir(folder) else []:
        text = open(os.path.join(folder, name)).read()
        words.update(re.findall(r"^(?:unfoldable |abbrev )?pub (?:record |data )?(%s)" % WORD, text, re.M))
        words.update(re.findall(r"^ +(?:pub )?(%s) :" % WORD, text, re.M))
    words -= {'use', 'mod'}
    return words


def items(crate):
    words = set()
    for text in sources(crate):
        words.update(re.findall(r'\b(?:fn|struct|enum|trait|const|mod|ensures|requires|ghost) (%s)' % WORD, text))
        words.update(re.findall(r'^ +(?:pub )?(%s)(?:,|\(| \{|:)' % WORD, text, re.M))
    return words


def main():
    ours = sorted(name for name in os.listdir(crates) if os.path.isdir(os.path.join(crates, name, 'src')))
    needed = {name: set() for name in ours}
    for crate in ours:
        homes = imports(crate)
        for clauses in public_clauses(crate):
            for word in re.findall(r'(?<![\w.])(%s)' % WORD, clauses):
                if homes.get(word) in needed and word in definitions(homes[word]):
                    needed[homes[word]].add(word)
    if '--list' in sys.argv:
        for crate in ours:
            print(crate + ':', ' '.join(sorted(needed[crate])))
        return 0
    sections, faults = {}, []
    pages = os.path.join(top, 'docs', 'definitions')
    known = set(ours) | set().union(*(definitions(c) | items(c) for c in ours))
    for page in sorted(os.listdir(pages)):
        crate = None
        for line in open(os.path.join(pages, page)):
            head = re.match(r'^## (\w+)', line)
            if head:
                crate = head.group(1)
                if crate not in needed:
                    faults.append('%s: no crate %s' % (page, crate))
            for word in re.findall(r'`([^`]*)`', line):
                if re.fullmatch(WORD, word):
                    sections.setdefault(crate, set()).add(word)
                    if word not in known:
                        faults.append('%s: no definition and no item is called %s' % (page, word))
    for crate in ours:
        for word in sorted(needed[crate] - sections.get(crate, set())):
            faults.append('docs/definitions: %s is not explained under %s' % (word, crate))
    for fault in faults:
        print(fault)
    return 1 if faults else 0


if __name__ == '__main__':
    sys.exit(main())
