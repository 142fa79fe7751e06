"""The diagnostics of several webs, in which one fault is shown once: a file may be in a web with
its changes and without them, and both have most faults."""
import re

MORE = 'more'           # the code of a diagnostic that only counts faults
PLACE = re.compile(r'.*?:\d+: ')


def merged(tables):
    """The diagnostics of these tables, each by URI, as one such table."""
    tables = [table for table in tables if table]
    if len(tables) < 2:
        return tables[0] if tables else {}
    found, places = {}, {}
    for table in tables:
        for uri, these in table.items():
            for one in these:
                key = key_of(uri, one)
                if key in places:
                    join(places[key], one)
                else:
                    places[key] = dict(one, data={'faults': list(one['data']['faults'])})
                    found.setdefault(uri, []).append(places[key])
    covered = covered_of([one for these in found.values() for one in these])
    return {uri: [one for one in these if id(one) not in covered] for uri, these in found.items()}


def key_of(uri, one):
    """What two diagnostics of one fault have in common."""
    first = one['data']['faults'][:1] if one.get('code') != MORE else []
    text = PLACE.sub('', first[0], 1) if first else one['message']
    return uri, repr(one['range']), one['severity'], one.get('code'), one['source'], text


def join(known, one):
    """Adds the faults and the places of a diagnostic to those of another one."""
    for table, other in ((known['data'], one['data']), (known, one)):
        for key in ('faults', 'relatedInformation'):
            if other.get(key):
                these = {repr(each): each for each in table.get(key, []) + other[key]}
                table[key] = list(these.values())


def covered_of(diagnostics):
    """Those of which another diagnostic has all faults, and more or before them. One that only
    counts faults shows none of them."""
    diagnostics = [one for one in diagnostics if one.get('code') != MORE]
    having = {}                         # a fault: the numbers of the diagnostics that have it
    sets = [set(one['data']['faults']) for one in diagnostics]
    for number, faults in enumerate(sets):
        for fault in faults:
            having.setdefault(fault, []).append(number)
    covered = set()
    for number, faults in enumerate(sets):
        others = having[next(iter(faults))] if faults else ()
        if any(faults < sets[other] or faults == sets[other] and other < number
               for other in others):
            covered.add(id(diagnostics[number]))
    return covered
