"""The variables that the names of a function mean, where they stand."""
from __future__ import annotations

from dataclasses import dataclass, field, replace

from .acsl import RESERVED
from .declarations import Declarations, Variable
from .whole import Whole


@dataclass
class Scopes:
    """The scopes around a place in a function, the innermost last, and what is known of the variables that have been declared."""

    declared: Declarations
    scopes: list[dict[str, Variable]] = field(default_factory=list)
    types: dict[str, Whole] = field(default_factory=dict)
    hidden: list[str] = field(default_factory=list)
    """The variables that a call or a pointer may reach."""
    addressed: set[str] = field(default_factory=set)

    def resolve(self, name: str) -> Variable | None:
        return next((scope[name] for scope in reversed(self.scopes) if name in scope), self.declared.globals.get(name))

    def constants(self) -> dict[str, int]:
        """The constants of enumerations in scope, with their numbers."""
        known = dict(self.declared.constants)
        for scope in self.scopes:
            for name, variable in scope.items():
                known.pop(name, None)
                if variable.number is not None:
                    known[name] = variable.number
        return known

    def keys(self) -> dict[str, str]:
        """The variables in scope by their keys, with the names by which they are known here."""
        names = dict(self.declared.globals)
        for scope in self.scopes:
            names.update(scope)
        return {variable.key: name for name, variable in names.items() if variable.key is not None and name not in RESERVED}

    def in_scope(self) -> frozenset[str]:
        """The keys of all variables that have a value here, also of those whose name means another one here."""
        every = [*self.declared.globals.values(), *(variable for scope in self.scopes for variable in scope.values())]
        return frozenset(variable.key for variable in every if variable.key is not None)

    def declare(self, name: str, variable: Variable) -> Variable:
        """A variable in the innermost scope, with a key that no other in scope has."""
        if variable.key is not None:
            taken = self.in_scope()
            keys = (name, *(f"{name}'{number}" for number in range(2, 1000)))
            key = next(key for key in keys if key not in taken)
            variable = replace(variable, key=key)
            if variable.type is not None:
                self.types[key] = variable.type
            if name in self.addressed and not variable.is_fixed():
                self.hidden.append(key)
        self.scopes[-1][name] = variable
        return variable
