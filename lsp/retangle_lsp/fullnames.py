"""A full name for an abbreviation that none belongs to: the longest such abbreviation, or a name
that is asked for, is written in full where the section is defined."""
from .protocol import REQUEST_FAILED, Problem, decoded, shown
from .renaming import (check_readings, check_renaming, edits_by_uri, inner, name_given,
                       through_changes, webs_with)
from .requests import spots
from .scanning import DEFINITION, is_abbreviation, written_name


def is_bare(names, text):
    """Whether this is an abbreviation that no full name belongs to."""
    return is_abbreviation(text) and not names.beginning_with(text[:-3])


def family(names, text):
    """The longest abbreviation that begins as this one, and those that are its beginnings."""
    bare = [one for one in names.abbreviations if is_bare(names, one)]
    longest = max((one for one in bare if one.startswith(text[:-3])), key=lambda one: (
        len(one), one))
    return longest, [one for one in bare if longest.startswith(one[:-3])]


def name_for(names, text):
    return family(names, text)[0][:-3].rstrip()


def edits(workspace, web, text, name):
    """The edits, by URI, that give an abbreviation and its beginnings this full name in all webs
    with files of this one."""
    these = family(web.names(), text)[1]
    made, readings = {}, {}
    for reading in webs_with(workspace, web.members, readings):
        check_renaming(reading, name, name, these)
        if name in reading.names.names:
            raise Problem(REQUEST_FAILED, 'there is a section <%s>' % shown(name))
        for one in to_write(reading.names, these, name):
            places = inner(reading.names, one)
            if places is None:
                raise Problem(REQUEST_FAILED, 'the abbreviation is written in two files at once')
            made[reading.root, places] = decoded(written_name(name))
    through_changes(readings.values(), made)
    check_readings(readings.values(), made, lambda one: name if one in these else one)
    return edits_by_uri(workspace, made)


def to_write(names, these, name):
    """Where abbreviations become a full name: at the first definition, and where one is no
    beginning of the name."""
    found = sorted((one for each in these for one in names.found_as(each)), key=lambda one: (
        one.occurrence.role != DEFINITION, one.chunk, one.occurrence.start))
    return found[:1] + [one for one in found[1:]
                        if not name.startswith(one.occurrence.text[:-3])]


def bare_at(workspace, path, place):
    """The web, the occurrence and the text of an abbreviation without a full name at a place; or
    None."""
    for spot in spots(workspace, path, place):
        names = spot.web.names()
        found = names.found_at(spot.files, spot.row, spot.column)
        if found and is_bare(names, found.occurrence.text) and inner(names, found):
            return spot.web, found, found.occurrence.text
    return None


def prepare(workspace, path, place):
    """What is answered before such an abbreviation is renamed; None where there is none."""
    found = bare_at(workspace, path, place)
    if not found:
        return None
    web, one, text = found
    return {'range': web.range(*inner(web.names(), one)),
            'placeholder': shown(name_for(web.names(), text))}


def rename(workspace, path, place, new):
    """The edits that give such an abbreviation a name; None where there is none."""
    found = bare_at(workspace, path, place)
    return found and edits(workspace, found[0], found[2], name_given(new))


def action(workspace, web, text):
    """The action at a fault: its title and its edits, or none where these would be refused."""
    name = name_for(web.names(), text)
    title = 'Give <%s> a full name' % shown(text)
    try:
        return title, edits(workspace, web, text, name) if name else {}
    except Problem:
        return title, {}
