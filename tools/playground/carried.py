"""The explanations of the playground's page: the modules of tools/reference, tools/explain and tools/view that they need, translated
(translation.py), and after what these call (python.js, library.js)."""
import ast
import os

from . import translation

HERE = os.path.dirname(os.path.abspath(__file__))
TOOLS = os.path.dirname(HERE)
ROOTS = ('view.data', 'playground.asked')
LIBRARY = frozenset(('re', 'collections', 'os', 'sys', 'contextlib', 'signal', 'time', 'tempfile', 'subprocess', 'json', 'textwrap',
                     'unicodedata', 'difflib', 'functools', 'itertools', 'copy'))
BROWSER = 'browser'                                            # its modules are imported without the folder's name
# Of these modules only what is named, since the rest of them starts programs.
ONLY = {'engines': frozenset(('NotShown', 'FIRST_SIZE', 'WIDEST', 'NO_RATIO', 'NO_FRAME', 'whole_size', 'ratio_of', 'planned', 'scripts'))}
LEFT_OUT = frozenset(('reference.random_scripts',))            # imported by what the page never calls
CONSTANTS = {'view.recording': {'SECONDS': 20}}


def path_of(name):
    """The file of a module, or None if it isn't one of the repository's."""
    for folder in (TOOLS, os.path.join(TOOLS, BROWSER)):
        base = os.path.join(folder, *name.split('.'))
        for path in (base + '.py', os.path.join(base, '__init__.py')):
            if os.path.exists(path):
                return path
    return None


def _is_kept(node, names):
    if isinstance(node, ast.ImportFrom):
        return node.module in names
    if isinstance(node, (ast.FunctionDef, ast.ClassDef)):
        return node.name in names
    return isinstance(node, ast.Assign) and isinstance(node.targets[0], ast.Name) and node.targets[0].id in names


def _read(name):
    path = path_of(name)
    with open(path, encoding='utf-8') as file:
        tree = ast.parse(file.read(), path)
    if name in ONLY:
        tree.body = [node for node in tree.body if _is_kept(node, ONLY[name])]
    return os.path.relpath(path, os.path.dirname(TOOLS)), tree


def _wanted(name, path, tree):
    """The names of the repository's modules that this one imports, in order."""
    package = name if path.endswith('__init__.py') else name.rpartition('.')[0]
    for node in ast.walk(tree):
        if isinstance(node, ast.Import):
            yield from [alias.name for alias in node.names]
        elif isinstance(node, ast.ImportFrom):
            above = package.split('.')
            base = '.'.join(above[:len(above) - node.level + 1] + ([node.module] if node.module else [])) if node.level else node.module
            for alias in node.names:
                inner = '%s.%s' % (base, alias.name)
                yield inner if path_of(inner) else base


def modules():
    """name -> (path, tree) of all modules that the roots need."""
    found, waiting = {}, list(ROOTS)
    while waiting:
        name = waiting.pop()
        if name in found or name in LIBRARY or name in LEFT_OUT:
            continue
        if path_of(name) is None:
            raise translation.Untranslatable('the module %s is neither the repository\'s nor in library.js' % name)
        found[name] = _read(name)
        waiting.extend(_wanted(name, *found[name]))
    return found


def program():
    """The text of the translated modules."""
    found = modules()
    knowledge = translation.Knowledge([tree for _, tree in found.values()])
    parts = [translation.Module(name, tree, knowledge, path, CONSTANTS.get(name)).translated()
             for name, (path, tree) in sorted(found.items())]
    return '\n'.join(parts + ["define('%s', () => {});" % name for name in sorted(LEFT_OUT)])


def part(name):
    with open(os.path.join(HERE, name), encoding='ascii') as file:
        return file.read()


def whole():
    """The translated modules with what they call, as one text."""
    return '\n'.join([part('python.js'), part('library.js'), program()])
