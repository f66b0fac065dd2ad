"""Declarations of crates/*/specs and proofs, found in their text, for docs/figures and docs/names."""
import re
from pathlib import Path

ROOT = Path(__file__).resolve().parent.parent
CRATES = ROOT / 'crates'


def code_lines(text, comment):
    return sum(1 for line in text.splitlines() if line.strip() and not line.strip().startswith(comment))


def tokens(text):
    """the names in a declaration, without comments, fields and labels"""
    text = re.sub(r'--.*', '', text)
    text = re.sub(r'(?<=[\s)])\.[\w-]+', ' ', text)
    text = re.sub(r"(?<=[)'])\.[\w-]+", ' ', text)
    text = re.sub(r'(record \{|;)\s*[\w-]+ =', r'\1', text)
    text = re.sub(r'^ +pub [\w-]+ :', '', text, flags=re.M)
    return re.findall(r'[^\s(){};,λ⌜⌝]+', text)


class Module:
    """A file of definitions: its declarations, and where the names that it uses come from."""

    def __init__(self, path):
        self.path = path
        text = path.read_text()
        self.uses = uses_of(text)
        self.blocks = {}
        self.home = {}
        self.constructors = set()
        self.read(text.splitlines())

    def read(self, lines):
        current, at, data = None, 0, False
        for line in lines:
            bare = line.strip()
            indent = len(line) - len(line.lstrip())
            if not bare or bare.startswith('--'):
                continue
            if re.match(r'use |(pub )?mod |module ', bare):
                current = None
                continue
            first = re.match(r'(?:(?:abbrev|unfoldable|pub|data|record) )*(\S+)', bare).group(1)
            if current is None or (indent <= at and first not in (current, 'unfolding')):
                current, at, data = first, indent, bool(re.match(r'(pub )?data ', bare))
                self.blocks[current] = []
                self.home[current] = current
            elif data and ' : ' in bare:
                for name in bare.split(' : ')[0].split():
                    self.home[name] = current
                    self.constructors.add(name)
            self.blocks[current].append(line)


def uses_of(text):
    """name or alias -> (module, name or None)"""
    found = {}
    for module, names, alias in re.findall(r'^(?:pub |ghost )?use ([^\s{;]+?)(?:\.\{([^}]*)\})?(?: as ([\w-]+))?;?$', text, re.M):
        if alias:
            found[alias] = (module, None)
        elif names:
            for name in names.split(','):
                found[name.strip()] = (module, name.strip())
    return found


def file_of(module):
    """the file of a module, or none where it is the toolchain's or declared by the code"""
    got = re.match(r'Rattle\.(\w+)\.specs\.(.*)', module)
    if not got or got.group(2).startswith('declared.'):
        return None
    path = CRATES / got.group(1) / 'specs' / (got.group(2).replace('.', '/') + '.antt')
    return path if path.exists() else None
