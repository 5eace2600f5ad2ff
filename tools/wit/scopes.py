"""What an interface or a world is, as data."""
from . import faults
from .faults import Fault
from .names import check_attributes
from .order import in_order
from .syntax import PRIMITIVES, Definition, Entry, Function, Include, Scope, Type, Use
from .values import docs_of, marked, stability_of, without_none

MAP_KEYS = PRIMITIVES - {"f32", "f64", "error-context"}
PARTS = {"record": "field", "variant": "case", "enum": "case", "flags": "flag"}
FUNCTION = "function"  # in a table of names, what is no type


class ScopeData:
    """Makes the data of an interface or a world, of which the lists are begun."""

    def __init__(self, package, scope, id):
        self.package, self.scope, self.id, self.file = package, scope, id, scope.file
        self.is_world = scope.word == "world"
        self.made = (package.worlds if self.is_world else package.interfaces)[id]
        # what its names are: the id of a type, or FUNCTION
        self.names = {} if self.is_world else package.names[id]
        self.owner = {scope.word: id}

    def span(self, span):
        return self.package.places.span(self.file, span)

    def type_ids(self):
        return {name: id for name, id in self.names.items() if id != FUNCTION}

    def make(self):
        self.each(self.begin, [self.scope])
        self.each(self.use, self.scope.of(Use))
        try:
            definitions = self.definitions()
        except Fault as fault:
            self.package.report.problem(fault)
            return
        self.each(self.definition, definitions)
        self.each(self.include, self.scope.of(Include))
        if self.is_world:
            for name, id in self.names.items():
                self.made["imports"][marked(name)] = {"type": {"id": id, "span": self.package.types[id]["span"]}}
        self.each(self.other, self.scope.statements)
        if not self.is_world:
            self.made["types"] |= self.type_ids()

    def each(self, make, statements):
        """Makes statements, and tells what is wrong with them."""
        for statement in statements:
            try:
                make(statement)
            except Fault as fault:
                self.package.report.problem(fault)

    def common(self, gate, may_have_id=False):
        """What each thing may have: documentation, a gate, an external id."""
        check_attributes(self.file, gate, may_have_id)
        return without_none(docs=docs_of(gate.docs), stability=stability_of(gate), external_id=gate.external_id)

    def begin(self, scope):
        # (of an interface in place the external id is that of its entry)
        gate = scope.gate
        check_attributes(self.file, gate, scope.is_in_place)
        self.made |= without_none(docs=docs_of(gate.docs), stability=stability_of(gate))

    # names of types

    def define(self, name, span, what):
        if name in self.names:
            raise faults.DefinedTwice(self.file, span, name=name)
        self.names[name] = what

    def use(self, use):
        id = self.package.interface_at(self.file, use.path)
        more = self.common(use.gate)
        more.pop("docs", None)
        names = self.package.names[id]
        for it in use.names:
            named = names.get(it.name.text)
            if named is None:
                raise faults.NotThere(self.file, it.name.span, kind="name", name=it.name)
            if named == FUNCTION:
                raise faults.UsedFunction(self.file, it.name.span, name=it.name)
            # (its span is that of the name that it is taken from)
            self.define(it.new.text, it.new.span, self.add_named(it.new.text, {"type": named}, it.name.span, more))

    def add_named(self, name, kind, span, more):
        made = self.package.add_type(name, kind, self.owner, self.span(span))
        self.package.types[made] |= more
        return made

    def definitions(self):
        """The definitions, each behind those that it names."""
        found, nodes = {}, {}
        for it in self.scope.of((Use, Definition)):
            if isinstance(it, Use):
                for renaming in it.names:
                    if renaming.new.text in found:
                        raise faults.DefinedAbove(self.file, renaming.new.span, name=renaming.new)
                    nodes[renaming.new.text] = []
                continue
            if it.name in nodes:
                raise faults.DefinedTwice(self.file, it.span, name=it.name)
            found[it.name] = it
            nodes[it.name] = [(self.file, ty.name, ty.span) for ty in it.named()]
        return [found[name] for name in in_order("type", nodes) if name in found]

    def definition(self, it):
        more = self.common(it.gate, may_have_id=True)
        try:
            kind = self.definition_kind(it, more.get("stability"))
        except Fault:
            # (who names it isn't told, too)
            self.define(it.name, it.span, self.add_named(it.name, "resource", it.span, more))
            raise
        self.define(it.name, it.span, self.add_named(it.name, kind, it.span, more))

    def definition_kind(self, it, gate):
        """What a definition is. Types without a name that it is the first to write have its gate."""
        if it.word == "resource":
            self.check_functions(it)
            return "resource"
        if it.word == "type":
            return self.kind(it.type, gate)
        if not it.parts and it.word != "record":
            raise faults.NoCase(self.file, it.span, word=it.word)
        self.note_twice(PARTS[it.word], [part.name for part in it.parts])
        word = {"record": "fields", "flags": "flags"}.get(it.word, "cases")
        return {it.word: {word: [self.part(it.word, part, gate) for part in it.parts]}}

    def note_twice(self, what, names):
        """Notes what is there twice, which wit-parser reads, though no component can have it."""
        met = set()
        for name in names:
            if name.text in met:
                self.package.report.note(self.file, name.line, f"{what} `{name}` is there already")
            met.add(name.text)

    def check_functions(self, resource):
        """Raises what a resource has twice."""
        names, constructors = set(), 0
        for it in resource.functions:
            name = it.name.rpartition(".")[2]
            constructors += it.is_constructor
            if it.is_constructor and constructors > 1:
                raise faults.SecondConstructor(self.file, it.span)
            if not it.is_constructor and name in names:
                raise faults.FunctionTwice(self.file, it.span, name=name)
            names.add(name)

    def part(self, word, part, gate):
        made = {"name": part.name.text}
        if word in ("record", "variant"):
            made["type"] = self.type(part.type, gate) if part.type else None
        return made | without_none(docs=docs_of(part.docs), span=self.span(part.name.span))

    # all else

    def include(self, it):
        more = self.common(it.gate)
        more.pop("docs", None)
        self.note_twice("label", [renaming.name for renaming in it.names])
        names = [{"name": renaming.name.text, "as": renaming.new.text} for renaming in it.names]
        id = self.package.item_at(self.file, it.path, "world")
        self.made["includes"].append({"id": id, "names": names} | more | {"span": self.span(it.path.span)})

    def other(self, statement):
        """Makes what is no type."""
        if isinstance(statement, Definition):
            self.each(self.add_function, statement.functions)
        elif isinstance(statement, Function):
            self.define(statement.name, statement.span, FUNCTION)
            self.add_function(statement)
        elif isinstance(statement, Entry):
            self.entry(statement)

    def add_function(self, function):
        made = self.function(function)
        if self.is_world:
            self.made["imports"][marked(function.name)] = {"function": made}
        else:
            self.made["functions"][function.name] = made

    def entry(self, entry):
        key, span, item = self.entry_item(entry)
        made = self.made[f"{entry.word}s"]
        if entry.label is None and key in made:
            raise faults.EntryTwice(self.file, span, word=entry.word)
        if key in made:
            (kind,) = made[key]
            kind = {"function": "func"}.get(kind, kind)
            raise faults.EntryConflict(self.file, span, word=entry.word, name=entry.label, kind=kind)
        made[key] = item

    def entry_item(self, entry):
        """The key of an entry, its span, and what it is."""
        if isinstance(entry.item, Function):
            return marked(entry.label.text), entry.label.span, {"function": self.function(entry.item)}
        more = self.common(entry.gate, may_have_id=True)
        if isinstance(entry.item, Scope):
            more.pop("docs", None)
            key, span = marked(entry.label.text), entry.label.span
            id = self.package.add_interface(None, self.span(span))
            ScopeData(self.package, entry.item, id).make()
        else:
            id = self.package.interface_at(self.file, entry.item)
            key, span = marked(entry.label.text) if entry.label else f"interface-{id}", entry.item.span
        return key, span, {"interface": {"id": id} | more | {"span": self.span(span)}}

    # functions

    def function(self, it):
        more = self.common(it.gate, may_have_id=True)
        params = [{"name": "self", "type": self.self_type(it), "span": self.span(it.span)}] if it.is_method else []
        names = {param["name"] for param in params}
        for part in it.parameters:
            params.append({"name": part.name.text, "type": self.type(part.type), "span": self.span(part.name.span)})
            if part.name.text in names:
                raise faults.ParameterTwice(self.file, part.name.span, name=part.name)
            names.add(part.name.text)
        result = self.result(it)
        more |= without_none(span=self.span(it.span))
        return {"name": it.name, "kind": self.function_kind(it), "params": params} | without_none(result=result) | more

    def self_type(self, it):
        return self.package.add_unnamed({"handle": {"borrow": self.names[it.resource]}}, self.span(it.span))

    def function_kind(self, it):
        asynchronous = "async-" if it.is_async else ""
        if it.resource is None:
            return f"{asynchronous}freestanding"
        word = it.name[1 : it.name.index("]")]
        return {f"{asynchronous}{word}": self.names[it.resource]}

    def result(self, it):
        if it.result is None:
            return self.names[it.resource] if it.is_constructor else None
        made = self.type(it.result)
        if it.is_constructor:
            kind = self.package.types[made]["kind"] if isinstance(made, int) else None
            if not isinstance(kind, dict) or "result" not in kind:
                raise faults.ConstructorResult(self.file, it.result.span)
            if kind["result"]["ok"] != self.names[it.resource]:
                is_form = it.result.name == "result" and it.result.is_form
                ok = it.result.parts[0] if is_form and it.result.parts else None
                raise faults.ConstructorOk(self.file, (ok or it.result).span)
        return made

    # types

    def type(self, ty, gate=None):
        """A primitive or an id. The gate is that of new types without a name which have none by their parts."""
        made = {}
        for it in ty.inner_first():
            kind = self.kind_of(it, made)
            is_type = set(kind) == {"type"}
            made[id(it)] = kind["type"] if is_type else self.package.add_unnamed(kind, self.span(it.span), gate)
        return made[id(ty)]

    def kind(self, ty, gate):
        """What a type is, as an alias where it is a name."""
        return self.kind_of(ty, {id(it): self.type(it, gate) for it in ty.parts if isinstance(it, Type)})

    def kind_of(self, ty, made):
        """The same, where these are the ids of its parts."""
        if not ty.is_form:
            return {"type": ty.name if ty.is_word else self.named(ty)}
        if ty.name in ("own", "borrow"):
            return {"handle": {ty.name: self.resource(ty.parts[0])}}
        parts = [made[id(it)] if isinstance(it, Type) else it for it in ty.parts]
        if ty.name == "result":
            ok, err = [*parts, None, None][:2]
            return {"result": {"ok": ok, "err": err}}
        if ty.name == "tuple":
            return {"tuple": {"types": parts}}
        if ty.name == "map":
            if parts[0] not in MAP_KEYS:
                raise faults.MapKey(self.file, ty.span)
            return {"map": parts}
        if ty.name == "list" and len(parts) == 2:
            return {"fixed-length-list": parts}
        return {ty.name: parts[0] if parts else None}

    def named(self, ty):
        found = self.names.get(ty.name)
        if found is None:
            raise faults.NotThere(self.file, ty.span, kind="name", name=ty.name)
        if found == FUNCTION:
            raise faults.FunctionAsType(self.file, ty.span, name=ty.name)
        return found

    def resource(self, ty):
        """The id of a type that is a resource, or is another package's and has to be one."""
        id = end = self.named(ty)
        while isinstance(kind := self.package.types[end]["kind"], dict) and isinstance(kind.get("type"), int):
            end = kind["type"]
        if kind == "unknown":
            self.package.required.append([end, self.span(ty.span)])
        elif kind != "resource":
            raise faults.NoResource(self.file, ty.span, name=ty.name)
        return id
