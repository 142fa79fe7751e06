"""Full names and abbreviations, resolved over the whole web (docs/names.md)."""
from bisect import bisect_left

from faults import Fault


class Names:
    """The full names in order, what each occurrence resolves to (a name, or None, with the kind of
    its fault in `unresolved`), and the faults of names."""

    def __init__(self, occurrences):
        self.sorted = sorted(set(one.text for one in occurrences if not one.is_abbreviated))
        self.resolved, self.unresolved, self.faults = [], {}, []
        self.first, self.first_file = {}, {}    # a name's first occurrence, and the first that makes it a file
        for number, occurrence in enumerate(occurrences):
            name = self._resolve(number, occurrence)
            self.resolved.append(name)
            if name is not None:
                self.first.setdefault(name, number)
                if occurrence.is_file:
                    self.first_file.setdefault(name, number)
        self.full_names = sorted(self.first, key=self.first.get)
        self.numbers = {name: number for number, name in enumerate(self.full_names)}
        for name in self.full_names:
            if len(self._beginning_with(name)) > 1:
                self.faults.append(Fault('PrefixName', occurrences[self.first[name]].place, name))

    def _beginning_with(self, prefix):
        """The first two full names that begin so."""
        start = bisect_left(self.sorted, prefix)
        return [name for name in self.sorted[start:start + 2] if name.startswith(prefix)]

    def _resolve(self, number, occurrence):
        if not occurrence.is_abbreviated:
            return occurrence.text
        found = self._beginning_with(occurrence.text[:-3])
        if len(found) == 1:
            return found[0]
        self.unresolved[number] = 'Ambiguous' if found else 'NoFullName'
        self.faults.append(Fault(self.unresolved[number], occurrence.place, occurrence.text))
        return None
