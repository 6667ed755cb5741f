"""Translates the Python of tools/reference, tools/explain and tools/view into JavaScript, so that the playground's page runs the same
explanations as bin/explain and bin/view. What it can't translate it refuses with the place; python.js has what the result calls.

The part of Python that is understood: functions, classes (with several bases, all but the last being mixins), generators, comprehensions,
exceptions and slices; no `global`, `nonlocal`, `async` or f-strings. Lists and tuples are both arrays in the result. Attributes begin
with `$` there, so that they can't meet a name of JavaScript's own.
"""
import ast
import json
import os
import re

RESERVED = frozenset('''abstract arguments await boolean byte case catch char const debugger default delete do double else enum eval
export extends final finally float for function goto if implements import in instanceof int interface let long native new null
package private protected public return short static super switch synchronized this throw throws transient true try typeof undefined
var void volatile while with yield false class Map Set Symbol Object Array String Number BigInt RegExp Math Error JSON'''.split())
BINARY = {ast.Add: 'add', ast.Sub: 'subtract', ast.Mult: 'multiply', ast.FloorDiv: 'floor_divide', ast.Div: 'divide', ast.Mod: 'modulo',
          ast.LShift: 'shift', ast.BitOr: 'either', ast.Pow: 'power'}
COMPARED = {ast.Lt: 'is_less(%s, %s)', ast.LtE: '!is_less(%1$s, %0$s)', ast.Gt: 'is_less(%1$s, %0$s)', ast.GtE: '!is_less(%s, %s)',
            ast.Eq: 'equals(%s, %s)', ast.NotEq: '!equals(%s, %s)', ast.In: 'contains(%1$s, %0$s)', ast.NotIn: '!contains(%1$s, %0$s)',
            ast.Is: 'is_same(%s, %s)', ast.IsNot: '!is_same(%s, %s)'}
ORDERED = {ast.Lt: '<', ast.LtE: '<=', ast.Gt: '>', ast.GtE: '>='}
_PLACES = re.compile(r'%(?:%|-?0?(?:[0-9]*|\*)[sdrXxi]|\.[0-9]f)')          # of values in a form, which python.js fills in
BOOLEAN = frozenset('isinstance any all hasattr callable startswith endswith isdigit isalpha isalnum isprintable isascii'.split())
BUILTINS = frozenset('''len isinstance max min tuple range int list sorted enumerate sum set any all reversed zip next divmod dict abs str
frozenset getattr hasattr float bool bytes chr repr ord iter type print map filter callable'''.split())
EXCEPTIONS = frozenset('''Exception ValueError KeyError IndexError TypeError AttributeError StopIteration OSError UnicodeDecodeError
RuntimeError'''.split())


def _helpers():
    """The names at the top of python.js that aren't Python's own: a variable of such a name would hide what the result calls."""
    with open(os.path.join(os.path.dirname(os.path.abspath(__file__)), 'python.js'), encoding='ascii') as file:
        found = re.findall(r'^(?:const|let|function\*?|class) (\w+)', file.read(), re.M)
    return frozenset(found) - BUILTINS - EXCEPTIONS


HELPERS = _helpers()


class Untranslatable(Exception):
    """A construct that isn't understood, with its place."""


class Scope:
    """The names that a function, a class body or a module assigns, and how a name is written there."""

    def __init__(self, kind, names, outer=None, owner=None):
        self.kind, self.names, self.outer, self.owner = kind, names, outer, owner

    def knows(self, name):
        scope = self
        while scope is not None:
            if scope.kind != 'class' and name in scope.names:
                return True
            scope = scope.outer
        return False


def assigned(body):
    """The names that these statements bind, not counting those of inner functions and classes."""
    found = {}

    def bind(target):
        for node in ast.walk(target):
            if isinstance(node, ast.Name) and isinstance(node.ctx, (ast.Store, ast.Del)):
                found[node.id] = True

    def visit(node):
        if isinstance(node, (ast.FunctionDef, ast.ClassDef)):
            found[node.name] = True
            return
        if isinstance(node, (ast.Lambda, ast.ListComp, ast.SetComp, ast.DictComp, ast.GeneratorExp)):
            return
        if isinstance(node, (ast.Import, ast.ImportFrom)):
            for alias in node.names:
                found[alias.asname or alias.name.split('.')[0]] = True
        if isinstance(node, ast.Name):
            bind(node)
        if isinstance(node, ast.ExceptHandler) and node.name:
            found[node.name] = True
        for child in ast.iter_child_nodes(node):
            visit(child)
    for statement in body:
        visit(statement)
    return found


def written(name):
    """A variable's name in JavaScript."""
    return name + '_' if name in RESERVED or name in HELPERS else name


def quoted(text):
    """A text as a literal of JavaScript, in pure ASCII, which can't end a script element."""
    return json.dumps(text).replace('<', '\\u003c')


class Knowledge:
    """What is known of all modules before one is translated: the names of classes, methods and properties."""

    def __init__(self, trees):
        self.classes, self.methods, self.static = set(EXCEPTIONS), set(), set()
        for tree in trees:
            for node in ast.walk(tree):
                if isinstance(node, ast.ClassDef):
                    self.classes.add(node.name)
                    for inner in node.body:
                        if isinstance(inner, ast.FunctionDef) and not self.is_property(inner):
                            self.methods.add(inner.name)
                            if 'staticmethod' in self.decorators(inner):
                                self.static.add((node.name, inner.name))

    @staticmethod
    def decorators(function):
        called = [node.func if isinstance(node, ast.Call) else node for node in function.decorator_list]
        return [node.id if isinstance(node, ast.Name) else node.attr for node in called]

    def is_property(self, function):
        return 'property' in self.decorators(function)


BASES = {'list': 'ListThing', 'set': 'SetThing'}
BOUND_OF_BUILTINS = frozenset(['append', 'add', 'get', 'extend'])


class Module:
    """One module in translation; `package` is what a relative import begins at."""

    def __init__(self, name, tree, knowledge, path, constants=None):
        self.name, self.tree, self.knowledge, self.path = name, tree, knowledge, path
        self.package = name if path.endswith('__init__.py') else name.rpartition('.')[0]
        self.imports, self.constants = [], dict(constants or {})
        self.lines, self.level, self.temporary = [], 0, 0
        self.loops = []                   # a label for each loop around, if it has an else

    def refuse(self, node, said=None):
        raise Untranslatable('%s:%d: %s' % (self.path, getattr(node, 'lineno', 0), said or type(node).__name__))

    def emit(self, text):
        self.lines.append('  ' * self.level + text)

    def translated(self):
        """The text of a call that defines the module."""
        scope = Scope('module', assigned(self.tree.body))
        self.level = 1
        body = self.tree.body[1:] if self.tree.body and _is_text(self.tree.body[0]) else self.tree.body
        self.declare(scope, ())
        self.statements(body, scope)
        for name in scope.names:
            self.emit('module.$%s = %s;' % (name, written(name)))
        return 'define(%s, (module, take) => {\n%s\n});' % (quoted(self.name), '\n'.join(self.lines))

    def declare(self, scope, given):
        names = [written(name) for name in scope.names if name not in given]
        if names:
            self.emit('let %s;' % ', '.join(names))

    # --- statements -----------------------------------------------------------------------------------------------------------

    def statements(self, body, scope):
        for node in body:
            if not _is_text(node):
                getattr(self, 'do_' + type(node).__name__, self.refuse_statement)(node, scope)

    def refuse_statement(self, node, scope):
        self.refuse(node)

    def block(self, opening, body, scope, closing='}'):
        self.emit(opening)
        self.level += 1
        self.statements(body, scope)
        self.level -= 1
        self.emit(closing)

    def do_Pass(self, node, scope):
        pass

    def do_Import(self, node, scope):
        for alias in node.names:
            name = alias.asname or alias.name
            self.imports.append(alias.name)
            self.emit('%s = take(%s);' % (written(name), quoted(alias.name)))

    def do_ImportFrom(self, node, scope):
        base = node.module or ''
        if node.level:
            above = self.package.split('.')
            base = '.'.join(above[:len(above) - node.level + 1] + ([node.module] if node.module else []))
        for alias in node.names:
            self.imports.append((base, alias.name))
            self.emit('%s = take(%s, %s);' % (written(alias.asname or alias.name), quoted(base), quoted(alias.name)))

    def do_Assign(self, node, scope):
        value = self.value(node.value, scope)
        if scope.kind == 'module' and isinstance(node.targets[0], ast.Name) and node.targets[0].id in self.constants:
            value = repr(self.constants.pop(node.targets[0].id))
        if len(node.targets) > 1:
            self.temporary += 1
            name = '$t%d' % self.temporary
            self.emit('const %s = %s;' % (name, value))
            value = name
        for target in node.targets:
            self.assign(target, value, scope)

    def do_Expr(self, node, scope):
        self.emit(self.value(node.value, scope) + ';')

    def assign(self, target, value, scope):
        if isinstance(target, (ast.Tuple, ast.List)):
            simple = all(isinstance(part, ast.Name) or isinstance(part, ast.Starred) and isinstance(part.value, ast.Name)
                         for part in _flat(target))
            if simple and scope.kind != 'class':
                self.emit(';%s = %s;' % (self.pattern(target), value))
                return
            self.temporary += 1
            name = '$t%d' % self.temporary
            self.emit('const %s = [...%s];' % (name, value))
            for place, part in enumerate(target.elts):
                self.assign(part, '%s[%d]' % (name, place), scope)
        elif scope.kind == 'class':
            self.emit('%s.prototype.$%s = %s;' % (scope.owner, target.id, value))
        elif isinstance(target, ast.Name):
            self.emit('%s = %s;' % (written(target.id), value))
        elif isinstance(target, ast.Attribute):
            self.emit('%s.$%s = %s;' % (self.value(target.value, scope), target.attr, value))
        elif isinstance(target, ast.Subscript) and isinstance(target.slice, ast.Slice) and target.slice.step is None:
            ends = [self.value(end, scope) if end is not None else 'null' for end in (target.slice.lower, target.slice.upper)]
            self.emit('put_slice(%s, %s, %s);' % (self.value(target.value, scope), ', '.join(ends), value))
        elif isinstance(target, ast.Subscript):
            self.emit('put(%s, %s, %s);' % (self.value(target.value, scope), self.value(target.slice, scope), value))
        else:
            self.refuse(target)

    def pattern(self, target):
        """A target as a pattern of JavaScript."""
        if target is None:
            return ''
        if isinstance(target, ast.Name):
            return written(target.id)
        if isinstance(target, ast.Starred):
            return '...' + self.pattern(target.value)
        return '[%s]' % ', '.join([self.pattern(part) for part in target.elts])

    def do_AugAssign(self, node, scope):
        added = self.value(node.value, scope)
        operation = 'extended' if isinstance(node.op, ast.Add) else BINARY.get(type(node.op)) or self.refuse(node)
        if isinstance(node.target, ast.Name):
            name = written(node.target.id)
            self.emit('%s = %s(%s, %s);' % (name, operation, name, added))
        elif isinstance(node.target, ast.Attribute):
            place = '%s.$%s' % (self.value(node.target.value, scope), node.target.attr)
            self.emit('%s = %s(%s, %s);' % (place, operation, place, added))
        else:
            self.temporary += 1
            owner, key = '$o%d' % self.temporary, '$k%d' % self.temporary
            self.emit('const %s = %s, %s = %s;' % (owner, self.value(node.target.value, scope), key,
                                                   self.value(node.target.slice, scope)))
            self.emit('put(%s, %s, %s(item(%s, %s), %s));' % (owner, key, operation, owner, key, added))

    def do_Delete(self, node, scope):
        for target in node.targets:
            if not isinstance(target, ast.Subscript):
                self.refuse(target)
            self.emit('drop(%s, %s);' % (self.value(target.value, scope), self.value(target.slice, scope)))

    def do_Return(self, node, scope):
        self.emit('return %s;' % ('null' if node.value is None else self.value(node.value, scope)))

    def do_If(self, node, scope):
        self.block('if (%s) {' % self.test(node.test, scope), node.body, scope)
        if node.orelse:
            self.block('else {', node.orelse, scope)

    def do_While(self, node, scope):
        if node.orelse:
            self.refuse(node, 'a while with else')
        self.loops.append(None)
        self.block('while (%s) {' % self.test(node.test, scope), node.body, scope)
        self.loops.pop()

    def do_For(self, node, scope):
        self.temporary += 1
        name, label = '$i%d' % self.temporary, '$l%d' % self.temporary if node.orelse else None
        if label:
            self.emit('%s: {' % label)
        self.loops.append(label)
        self.emit('for (const %s of %s) {' % (name, self.value(node.iter, scope)))
        self.level += 1
        self.assign(node.target, name, scope)
        self.statements(node.body, scope)
        self.level -= 1
        self.emit('}')
        self.loops.pop()
        if label:
            self.statements(node.orelse, scope)
            self.emit('}')

    def do_Continue(self, node, scope):
        self.emit('continue;')

    def do_Break(self, node, scope):
        self.emit('break %s;' % self.loops[-1] if self.loops[-1] else 'break;')

    def do_Raise(self, node, scope):
        if node.exc is None:
            self.emit('throw $caught;')
        elif isinstance(node.exc, ast.Name) and node.exc.id in self.knowledge.classes:
            self.emit('throw new %s();' % written(node.exc.id))
        else:
            self.emit('throw %s;' % self.value(node.exc, scope))

    def do_Try(self, node, scope):
        ended = None
        if node.orelse:
            self.temporary += 1
            ended = '$e%d' % self.temporary
            self.emit('let %s = false;' % ended)
        self.emit('try {')
        self.level += 1
        self.statements(node.body, scope)
        if ended:
            self.emit('%s = true;' % ended)
        self.level -= 1
        if node.handlers:
            self.emit('} catch ($thrown) {')
            self.level += 1
            self.emit('const $caught = exception($thrown);')
            for place, handler in enumerate(node.handlers):
                if handler.type is None:
                    self.refuse(handler, 'an except without a type')
                self.emit('%sif (isinstance($caught, %s)) {' % ('else ' if place else '', self.value(handler.type, scope)))
                self.level += 1
                if handler.name:
                    self.emit('%s = $caught;' % written(handler.name))
                self.statements(handler.body, scope)
                self.level -= 1
                self.emit('}')
            self.emit('else throw $thrown;')
            self.level -= 1
        if node.finalbody:
            self.block('} finally {', node.finalbody, scope)
        else:
            self.emit('}')
        if ended:
            self.block('if (%s) {' % ended, node.orelse, scope)

    def do_With(self, node, scope):
        if len(node.items) != 1:
            self.refuse(node, 'a with of several parts')
        self.temporary += 1
        name = '$w%d' % self.temporary
        self.emit('const %s = %s;' % (name, self.value(node.items[0].context_expr, scope)))
        entered = '%s.$__enter__()' % name
        if node.items[0].optional_vars is None:
            self.emit(entered + ';')
        else:
            self.assign(node.items[0].optional_vars, entered, scope)
        self.block('try {', node.body, scope, '} finally { %s.$__exit__(); }' % name)

    # --- functions and classes ------------------------------------------------------------------------------------------------

    def do_FunctionDef(self, node, scope):
        decorators = self.knowledge.decorators(node)
        if scope.kind == 'class':
            self.method(node, scope, decorators)
            return
        self.emit('%s = %s;' % (written(node.name), self.function(node, scope, 'function')))
        for decorator, called in zip(decorators, node.decorator_list):
            if decorator not in ('contextmanager', 'lru_cache'):
                self.refuse(node, 'the decorator %s' % decorator)
            given = [self.value(one, scope) for one in called.args] if isinstance(called, ast.Call) else []
            self.emit('%s = %s(%s);' % (written(node.name), decorator, ', '.join([written(node.name)] + given)))

    def method(self, node, scope, decorators):
        owner = scope.owner
        if decorators == ['staticmethod']:
            self.emit('%s.prototype.$%s = %s.$%s = %s;' % (owner, node.name, owner, node.name,
                                                           self.function(node, scope, 'function')))
        elif decorators == ['property']:
            self.emit('Object.defineProperty(%s.prototype, "$%s", {get: %s});' % (
                owner, node.name, self.function(node, scope, 'method')))
        elif decorators:
            self.refuse(node, 'the decorator %s' % decorators[0])
        else:
            self.emit('%s.prototype.$%s = %s;' % (owner, node.name, self.function(node, scope, 'method')))

    def function(self, node, scope, kind):
        """A function as an expression, with the names of what it takes."""
        arguments = node.args
        if arguments.posonlyargs or arguments.kwarg:
            self.refuse(node, 'positional-only arguments or **')
        names = [argument.arg for argument in arguments.args]
        given, inner_scope = list(names), None
        if arguments.vararg:
            given.append(arguments.vararg.arg)
        given += [argument.arg for argument in arguments.kwonlyargs]
        is_lambda = isinstance(node, ast.Lambda)
        body = [ast.Return(node.body)] if is_lambda else node.body
        local = {} if is_lambda else assigned(body)
        inner_scope = Scope('function', {**local, **dict.fromkeys(given, True)}, scope)
        outer_lines, outer_level = self.lines, self.level
        self.lines, self.level = [], outer_level + 1
        taken = names[1:] if kind == 'method' else names
        parameters = self.parameters(arguments, taken, scope)
        if kind == 'method':
            self.emit('const %s = this;' % written(names[0]))
        if arguments.kwonlyargs:
            self.keyword_only(arguments, inner_scope)
        self.declare(Scope('function', local), given)
        self.statements(body, inner_scope)
        if not is_lambda:
            self.emit('return null;')
        text = '\n'.join(self.lines)
        self.lines, self.level = outer_lines, outer_level
        star = '*' if not is_lambda and _is_generator(body) else ''
        signature = '[%s], %s' % (', '.join([quoted(name) for name in taken]), 'true' if arguments.kwonlyargs else 'false')
        return 'signed(function%s (%s) {\n%s\n%s}, %s)' % (star, parameters, text, '  ' * self.level, signature)

    def parameters(self, arguments, taken, scope):
        defaults = dict(zip([argument.arg for argument in arguments.args][::-1], arguments.defaults[::-1]))
        for default in defaults.values():
            if any(isinstance(part, ast.Name) and part.id in taken for part in ast.walk(default)):
                self.refuse(default, 'a default that has the name of a parameter')
        parts = [written(name) + (' = ' + self.value(defaults[name], scope) if name in defaults else '') for name in taken]
        if arguments.vararg:
            parts.append('...' + written(arguments.vararg.arg))
        elif arguments.kwonlyargs:
            parts.append('...$given')
        return ', '.join(parts)

    def keyword_only(self, arguments, scope):
        rest = written(arguments.vararg.arg) if arguments.vararg else '$given'
        self.emit('const $named = named(%s);' % rest)
        for argument, default in zip(arguments.kwonlyargs, arguments.kw_defaults):
            name = written(argument.arg)
            self.emit('const %s = $named.%s === undefined ? %s : $named.%s;' % (
                name, argument.arg, 'null' if default is None else self.value(default, scope), argument.arg))

    def do_ClassDef(self, node, scope):
        bases = [self.built_in(base, scope) or self.value(base, scope) for base in node.bases]
        base = 'mixed(%s)' % ', '.join(bases) if len(bases) > 1 else bases[0] if bases else 'Thing'
        name = written(node.name)
        self.emit('%s = class %s extends %s {};' % (name, name, base))
        inner = Scope('class', assigned(node.body), scope, name)
        self.statements(node.body, inner)

    # --- expressions ----------------------------------------------------------------------------------------------------------

    def value(self, node, scope):
        found = getattr(self, 'of_' + type(node).__name__, None)
        return found(node, scope) if found else self.refuse(node)

    def test(self, node, scope):
        """An expression that is true or false in JavaScript as in Python."""
        if isinstance(node, ast.Compare):
            return self.value(node, scope)
        if isinstance(node, ast.UnaryOp) and isinstance(node.op, ast.Not):
            return '!' + _bracketed(self.test(node.operand, scope))
        if isinstance(node, ast.BoolOp):
            joint = ' && ' if isinstance(node.op, ast.And) else ' || '
            return '(%s)' % joint.join([self.test(part, scope) for part in node.values])
        if isinstance(node, ast.Call) and self.is_boolean_call(node.func, scope):
            return self.value(node, scope)
        return 'truth(%s)' % self.value(node, scope)

    def is_boolean_call(self, function, scope):
        if isinstance(function, ast.Name):
            return function.id in BOOLEAN and not scope.knows(function.id)
        return isinstance(function, ast.Attribute) and function.attr in BOOLEAN

    def of_Constant(self, node, scope):
        value = node.value
        if value is None or value is True or value is False:
            return {None: 'null', True: 'true', False: 'false'}[value]
        if isinstance(value, int):
            return str(value) if abs(value) < 1 << 53 else '%dn' % value
        if isinstance(value, float):
            return repr(value)
        if isinstance(value, str):
            return quoted(value)
        if isinstance(value, bytes):
            return 'new Bytes(%s)' % quoted(value.decode('latin-1'))
        return self.refuse(node)

    def of_Name(self, node, scope):
        if scope.kind == 'class' and node.id in scope.names:
            return 'unbound(%s.prototype.$%s)' % (scope.owner, node.id)
        if not scope.knows(node.id) and node.id in BUILTINS:
            return 'builtins.' + node.id
        return written(node.id)

    def of_Attribute(self, node, scope):
        owner = self.value(node.value, scope)
        if self.is_class(node.value):
            return 'of_class(%s, "$%s")' % (owner, node.attr)
        if node.attr in self.knowledge.methods or node.attr in BOUND_OF_BUILTINS:
            return 'bound(%s, "$%s")' % (owner, node.attr)
        return '%s.$%s' % (owner, node.attr)

    def is_class(self, node):
        return (isinstance(node, ast.Name) and node.id in self.knowledge.classes
                or isinstance(node, ast.Attribute) and node.attr in self.knowledge.classes)

    def arguments(self, node, scope):
        return [('...' + self.value(part.value, scope)) if isinstance(part, ast.Starred) else self.value(part, scope)
                for part in node.args]

    def of_Call(self, node, scope):
        arguments, function = self.arguments(node, scope), node.func
        if node.keywords:
            return self.with_keywords(node, arguments, scope)
        listed = ', '.join(arguments)
        if isinstance(function, ast.Name) and function.id == 'isinstance' and self.is_class(node.args[1]):
            return '(%s instanceof %s)' % tuple(arguments)
        if isinstance(function, ast.Name):
            return ('new %s(%s)' if self.is_class(function) else '%s(%s)') % (self.value(function, scope), listed)
        if isinstance(function, ast.Attribute) and _is_super(function.value):
            return 'above(self, %s, "$%s").call(%s)' % (self.owner_of(scope, node), function.attr, ', '.join(['self', *arguments]))
        if isinstance(function, ast.Attribute):
            built_in = self.built_in(function.value, scope)
            if built_in:
                return '%s.prototype.$%s.call(%s)' % (built_in, function.attr, listed)
            owner = self.value(function.value, scope)
            if self.is_class(function.value) and (_last(function.value), function.attr) in self.knowledge.static:
                return '%s.$%s(%s)' % (owner, function.attr, listed)
            if self.is_class(function.value):
                return '%s.prototype.$%s.call(%s)' % (owner, function.attr, listed)
            if function.attr in self.knowledge.classes:
                return 'new %s.$%s(%s)' % (owner, function.attr, listed)
            if isinstance(function.value, ast.Constant):
                owner = '(%s)' % owner
            return '%s.$%s(%s)' % (owner, function.attr, listed)
        return '(%s)(%s)' % (self.value(function, scope), listed)

    @staticmethod
    def built_in(node, scope):
        """The class for a type of Python's own from which a class derives, or None."""
        return BASES.get(node.id) if isinstance(node, ast.Name) and not scope.knows(node.id) else None

    def owner_of(self, scope, node):
        """The class in whose method this is."""
        while scope is not None:
            if scope.kind == 'class':
                return scope.owner
            scope = scope.outer
        return self.refuse(node, 'super outside a class')

    def with_keywords(self, node, arguments, scope):
        function = node.func
        parts = [('...plain(%s)' % self.value(keyword.value, scope)) if keyword.arg is None else '%s: %s' % (
            keyword.arg, self.value(keyword.value, scope)) for keyword in node.keywords]
        given = '[%s], {%s}' % (', '.join(arguments), ', '.join(parts))
        if isinstance(function, ast.Name):
            return '%s(%s, %s)' % ('make' if self.is_class(function) else 'call', self.value(function, scope), given)
        if isinstance(function, ast.Attribute) and function.attr in self.knowledge.classes:
            return 'make(%s.$%s, %s)' % (self.value(function.value, scope), function.attr, given)
        if isinstance(function, ast.Attribute):
            return 'call_method(%s, "$%s", %s)' % (self.value(function.value, scope), function.attr, given)
        return self.refuse(node)

    def of_BinOp(self, node, scope):
        if isinstance(node.op, ast.Mod) and isinstance(node.left, ast.Constant) and isinstance(node.left.value, (str, bytes)):
            form = node.left.value if isinstance(node.left.value, str) else node.left.value.decode('latin-1')
            if '%' in _PLACES.sub('', form):
                self.refuse(node, 'the form %r' % form)
        left, right = self.value(node.left, scope), self.value(node.right, scope)
        if isinstance(node.op, ast.Mod) and isinstance(node.right, ast.Tuple):
            return 'formatted(%s, %s)' % (left, right)
        return '%s(%s, %s)' % (BINARY.get(type(node.op)) or self.refuse(node), left, right)

    def of_UnaryOp(self, node, scope):
        if isinstance(node.op, ast.Not):
            return self.test(node, scope)
        if isinstance(node.op, ast.USub):
            return '(-%s)' % self.value(node.operand, scope)
        return self.refuse(node)

    def of_BoolOp(self, node, scope):
        if all(_is_boolean(part) for part in node.values):
            return self.test(node, scope)
        result = self.value(node.values[-1], scope)
        for part in reversed(node.values[:-1]):
            name = 'both' if isinstance(node.op, ast.And) else 'first_of'
            result = '%s(%s, () => %s)' % (name, self.value(part, scope), result)
        return result

    def of_IfExp(self, node, scope):
        return '(%s ? %s : %s)' % (self.test(node.test, scope), self.value(node.body, scope), self.value(node.orelse, scope))

    def of_Compare(self, node, scope):
        left, parts = node.left, []
        for operation, right in zip(node.ops, node.comparators):
            one, other = self.value(left, scope), self.value(right, scope)
            form = _plainly(operation, left, right) or COMPARED[type(operation)]
            parts.append(form.replace('%0$s', '\0').replace('%1$s', '\1').replace('\0', one, 1).replace('\1', other, 1)
                         if '$s' in form else form % (one, other))
            left = right
        return parts[0] if len(parts) == 1 else '(%s)' % ' && '.join(parts)

    def of_Subscript(self, node, scope):
        owner = self.value(node.value, scope)
        if isinstance(node.slice, ast.Slice):
            part = node.slice
            return 'slice(%s, %s)' % (owner, ', '.join([self.value(end, scope) if end is not None else 'null'
                                                        for end in (part.lower, part.upper, part.step)]))
        return 'item(%s, %s)' % (owner, self.value(node.slice, scope))

    def listed(self, node, scope):
        return '[%s]' % ', '.join(self.arguments(ast.Call(None, node.elts, []), scope))

    of_List = of_Tuple = listed

    def of_Set(self, node, scope):
        return 'builtins.set(%s)' % self.listed(node, scope)

    def of_Dict(self, node, scope):
        parts = ['...%s.$items()' % self.value(value, scope) if key is None else '[%s, %s]' % (
            self.value(key, scope), self.value(value, scope)) for key, value in zip(node.keys, node.values)]
        return 'new Dict([%s])' % ', '.join(parts)

    def of_Lambda(self, node, scope):
        return self.function(node, scope, 'function')

    def of_Starred(self, node, scope):
        return '...' + self.value(node.value, scope)

    def of_Yield(self, node, scope):
        return '(yield %s)' % ('null' if node.value is None else self.value(node.value, scope))

    def of_YieldFrom(self, node, scope):
        return '(yield* %s)' % self.value(node.value, scope)

    # --- comprehensions -------------------------------------------------------------------------------------------------------

    def comprehension(self, node, scope, begin, each, end):
        names = {}
        for generator in node.generators:
            names.update(assigned([ast.Expr(generator.target)]))
        inner = Scope('function', names, scope)
        text, closing = begin, ''
        for place, generator in enumerate(node.generators):
            over = self.value(generator.iter, scope if place == 0 else inner)
            tests = ''.join(['if (%s) ' % self.test(test, inner) for test in generator.ifs])
            target = self.pattern(_without_blanks(generator.target))
            text += 'for (const %s of %s) %s{ ' % (target, over, tests)
            closing += '} '
        return text + each(inner) + closing + end

    def of_ListComp(self, node, scope):
        return self.comprehension(node, scope, '(() => { const $r = []; ', lambda inner: '$r.push(%s); ' % self.value(node.elt, inner),
                                  'return $r; })()')

    def of_SetComp(self, node, scope):
        return 'builtins.set(%s)' % self.of_ListComp(node, scope)

    def of_DictComp(self, node, scope):
        return self.comprehension(
            node, scope, '(() => { const $r = new Dict(); ',
            lambda inner: '$r.set(%s, %s); ' % (self.value(node.key, inner), self.value(node.value, inner)), 'return $r; })()')

    def of_GeneratorExp(self, node, scope):
        return self.comprehension(node, scope, '(function* () { ', lambda inner: 'yield %s; ' % self.value(node.elt, inner), '})()')


def _plainly(operation, left, right):
    """The form of a comparison for which JavaScript's own operator does, or None."""
    kinds = [type(side.value) for side in (left, right) if isinstance(side, ast.Constant)]
    if isinstance(operation, (ast.Is, ast.IsNot)):
        sign = '==' if type(None) in kinds else '==='
        return '(%s ' + sign.replace('==', '!=', 1)[:len(sign)] + ' %s)' if isinstance(operation, ast.IsNot) else '(%s ' + sign + ' %s)'
    if str in kinds and isinstance(operation, (ast.Eq, ast.NotEq)):
        return '(%s === %s)' if isinstance(operation, ast.Eq) else '(%s !== %s)'
    if int in kinds and type(operation) in ORDERED:
        return '(%s ' + ORDERED[type(operation)] + ' %s)'
    return None


def _is_text(node):
    return isinstance(node, ast.Expr) and isinstance(node.value, ast.Constant) and isinstance(node.value.value, str)


def _is_boolean(node):
    if isinstance(node, ast.BoolOp):
        return all(_is_boolean(part) for part in node.values)
    return isinstance(node, ast.Compare) or isinstance(node, ast.UnaryOp) and isinstance(node.op, ast.Not)


def _bracketed(text):
    return text if text.startswith('(') or text.startswith('truth(') else '(%s)' % text


def _last(node):
    return node.id if isinstance(node, ast.Name) else node.attr


def _is_super(node):
    return isinstance(node, ast.Call) and isinstance(node.func, ast.Name) and node.func.id == 'super' and not node.args


def _without_blanks(target):
    """A target of several parts in which `_`, which may occur more than once, is left out."""
    if isinstance(target, (ast.Tuple, ast.List)):
        return ast.Tuple([None if isinstance(part, ast.Name) and part.id == '_' else _without_blanks(part) for part in target.elts])
    return target


def _flat(target):
    for part in target.elts:
        if isinstance(part, (ast.Tuple, ast.List)):
            yield from _flat(part)
        else:
            yield part


def _is_generator(body):
    waiting = list(body)
    while waiting:
        node = waiting.pop()
        if isinstance(node, (ast.Yield, ast.YieldFrom)):
            return True
        if not isinstance(node, (ast.FunctionDef, ast.Lambda, ast.ClassDef)):
            waiting.extend(ast.iter_child_nodes(node))
    return False
