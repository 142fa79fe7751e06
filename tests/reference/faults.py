"""What a fault is, its wording, and its line (docs/faults.md)."""
from collections import namedtuple

# place: (file, line) or None
Fault = namedtuple('Fault', 'kind place subject count')
Fault.__new__.__defaults__ = (b'', 0)

WARNINGS = frozenset(['PrefixName', 'Unused', 'NoProgram'])

WORDINGS = {
    'StrayMark': b'@y or @z out of place',
    'MissingY': b'change without @y',
    'MissingZ': b'change without @z',
    'EmptyOld': b'change without old lines',
    'IncludeNoName': b'inclusion without a file name',
    'IncludeMissing': b'included file not found: %s',
    'IncludeTooDeep': b'inclusion too deep',
    'ChangeMismatch': b'old lines that do not match: %d',
    'SourceTooLong': b'too many lines',
    'ChangeUnused': b'change never used',
    'LimboCode': b'code before the first section',
    'CodeInC': b'definition code in C text',
    'UseInDirective': b'section name or @h in a preprocessor line',
    'NameInMacro': b'section name in a macro',
    'MisplacedH': b'@h in a macro',
    'MacroName': b'macro must start with an identifier',
    'ControlText': b'control text did not end',
    'RawString': b'raw string',
    'StringAt': b'single @ in quoted text',
    'StringEnd': b'quoted text did not end',
    'VerbatimEnd': b'verbatim text did not end',
    'AsciiBad': b'bad ASCII constant',
    'CommentEnd': b'comment did not end',
    'NameEnd': b'section name did not end',
    'NameEquals': b'missing section start before a definition',
    'NoFullName': b'no full name for <%s>',
    'Ambiguous': b'several full names for <%s>',
    'PrefixName': b'begins another name: <%s>',
    'Undefined': b'undefined: <%s>',
    'Unused': b'never used: <%s>',
    'SelfContaining': b'contains itself: <%s>',
    'TooLarge': b'too large: <%s>',
    'FileClash': b"file name is the main file's: <%s>",
    'FileTwice': b'file has another name: <%s>',
    'NoProgram': b'no program text',
}


def is_error(fault):
    return fault.kind not in WARNINGS


def status_of(faults):
    return 1 if any(map(is_error, faults)) else 0


def fault_line(fault):
    wording = WORDINGS[fault.kind]
    if fault.kind == 'TooLarge' and fault.place is None:
        wording = b'too large: the unnamed program'
    elif b'%s' in wording:
        wording = wording.replace(b'%s', fault.subject)
    elif b'%d' in wording:
        wording = wording.replace(b'%d', b'%d' % fault.count)
    level = b'error: ' if is_error(fault) else b'warning: '
    where = b'' if fault.place is None else b'%s:%d: ' % fault.place
    return where + level + wording + b'\n'
