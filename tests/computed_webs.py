#!/usr/bin/env -S python3 -B
"""Compares the definitions of expansions with the reference: writes a crate of lemmas, one for each generated web, each of
which says by computing alone what the depths, weights and bytes of the web's nodes and its output files are.

usage: tests/computed_webs.py FOLDER FIRST COUNT

FOLDER is a new folder beside the other crates, and FIRST the seed to begin with. In crates.txt is
    FOLDER: tangle_graph digraph tangle_expansion tangle_bodies tangle_names tangle_scan tangle_lexer tangle_text tangle_lines tangle_faults tangle_files
and 'rt check' in the folder says whether all lemmas hold. The gate does not do this.

Of a node that reaches a name that contains itself only the depth is computed. Left out are webs of more than 60 lines, and those
of which an unfolding takes more than 20,000 steps: a definition that follows each use anew does not end in time on them.
"""
import os
import sys

here = os.path.dirname(os.path.abspath(__file__))
sys.path.insert(0, os.path.join(here, 'reference'))

import limits  # noqa: E402
from generator import Project  # noqa: E402
from graph import PROGRAM  # noqa: E402
from output import Writer  # noqa: E402
from tangling import Tangling  # noqa: E402

MOST_LINES, MOST_STEPS, MOST_BYTES, WEBS_A_FILE = 60, 20000, 3000, 20

HEAD = '''-- Generated webs: the depths, weights and bytes of their nodes, and their output files.
use Rattle.std.proofs.Common.{◌≡◌, ℕ, List, [], ◌∷◌, ◌++◌, refl}
use Rattle.std.specs.Prelude.{codes, map, true, false}
use Rattle.std.specs.Fmt.{digits}
use Rattle.tangle_lexer.specs.Steps.{lexeme, occurrences_from, tokens_from}
use Rattle.tangle_expansion.specs.Limits.{levels, heaviest}
use Rattle.tangle_graph.specs.PlainForms.{plain_form}
use Rattle.tangle_bodies.specs.Shapes.{Program, Named}
use Rattle.%s.proofs.Shown.{line, shown}

'''

SHOWN = '''-- What is shown of a web.
use Rattle.std.specs.Prelude.{ℕ, Bool, true, false, List, [], ◌∷◌, ◌++◌, map}
use Rattle.tangle_lines.specs.Reading.{SourceLine, SourceRead}
use Rattle.tangle_scan.specs.Web.{WebRead, web_of}
use Rattle.tangle_names.specs.NameTable.{table_of}
use Rattle.tangle_bodies.specs.Shapes.{Title}
use Rattle.tangle_bodies.specs.Flat.{flat, weight, depth}
use Rattle.tangle_expansion.specs.Limits.{levels}
use Rattle.tangle_bodies.specs.WebShapes.{shapes}
use Rattle.tangle_expansion.specs.Numbers.{numbers_of, expansion_bytes}
use Rattle.tangle_expansion.specs.Outputs.{output_file_bytes}
use Rattle.tangle_files.specs.declared.marks.MarkMode.TheVariants.{Full}
use Rattle.tangle_bodies.specs.Nodes.{title_at}
use Rattle.tangle_graph.specs.Outputs.{outputs}

-- the depth and the weight of a node, and the bytes that are written for it
pub record Node : Type 0 where
  pub depth : ℕ
  pub weight : ℕ
  pub bytes : List ℕ

pub record File : Type 0 where
  pub name : List ℕ
  pub bytes : List ℕ

pub record Shown : Type 0 where
  pub nodes : List Node
  pub cyclic : List ℕ
  pub files : List File

abbrev pub line : List ℕ → ℕ → ℕ → Bool → SourceLine
line bytes file n changed = record { bytes = bytes; origin = record { file = file; line = n }; changed = changed }

abbrev pub source : List (List ℕ) → List SourceLine → SourceRead
source files lines = record { files = map (λ name. (name, [])) files; lines = lines; faults = [] }

abbrev pub node_of : WebRead → Title → Node
node_of web title = record {
  depth = depth levels (shapes web (table_of web)) title;
  weight = weight levels (shapes web (table_of web)) title;
  bytes = expansion_bytes (numbers_of web (table_of web) Full) (flat levels (shapes web (table_of web)) title);
}

-- of the nodes the first, of those that reach a name that contains itself the depth, and the output files
abbrev pub shown_of : WebRead → List ℕ → List Title → List Title → Shown
shown_of web out nodes cyclic = record {
  nodes = map (node_of web) nodes;
  cyclic = map (depth levels (shapes web (table_of web))) cyclic;
  files = map (λ o. record { name = o.name; bytes = output_file_bytes (numbers_of web (table_of web) Full) o.has_macros o.has_piece (flat levels (shapes web (table_of web)) (title_at (table_of web).names o.node)) }) (outputs web (table_of web) out);
}

abbrev pub shown : List (List ℕ) → List SourceLine → List ℕ → List Title → List Title → Shown
shown files lines out nodes cyclic = shown_of (web_of (source files lines)) out nodes cyclic
'''


def is_plain(byte):
    return 32 <= byte < 127 and byte not in b'"\\'


def bytes_term(text):
    """The bytes as a list: stretches of plain ones as words, and the others one by one."""
    parts, at = [], 0
    while at < len(text):
        end = at
        while end < len(text) and is_plain(text[end]):
            end += 1
        if end > at:
            parts.append('codes "%s"' % text[at:end].decode('ascii'))
            at = end
        else:
            parts.append('(%d ∷ [])' % text[at])
            at += 1
    return '(' + ' ++ '.join(parts) + ')' if parts else '[]'


def list_term(terms):
    return '(' + ' ∷ '.join(terms + ['[]']) + ')'


def title_term(node):
    return 'Program' if node is PROGRAM else '(Named %s)' % bytes_term(node)


def steps(graph):
    """How many nodes are met where each use is followed anew, up to the greatest depth."""
    before = {node: 1 for node in graph.nodes}
    for _ in range(limits.DEPTH + 1):
        now = {node: 1 + sum(before[used] for used in graph._used(node)) for node in graph.nodes}
        if now == before:
            break
        before = {node: min(count, MOST_STEPS + 1) for node, count in now.items()}
    return sum(before.values())


def lemma(seed):
    """The lemma of the web of this seed; none where it would not end in time."""
    project = Project(seed)
    files, roles = project.loaded()
    if not project.is_small():
        return None
    tangling = Tangling(files, roles)
    graph = tangling.graph
    if len(tangling.source) > MOST_LINES or tangling.size() > MOST_BYTES or steps(graph) > MOST_STEPS:
        return None
    numbers = {name: number for number, (name, _) in enumerate(files)}
    writer = Writer(tangling.web, graph, tangling.marks)
    lines = ['line %s %d %d %s' % (bytes_term(line), numbers[origin[0]], origin[1], 'true' if changed else 'false')
             for line, origin, changed in tangling.source]
    plain = [node for node in graph.nodes if node not in graph.reaches_cycle]
    cyclic = [node for node in graph.nodes if node in graph.reaches_cycle]
    if any(graph.pieces[node] and node not in graph.expandable for node in plain):
        return None
    nodes = ['record { depth = %d; weight = %d; bytes = %s }'
             % (graph.depth[node], graph.weight[node], bytes_term(writer.text(node))) for node in plain]
    made = ['record { name = %s; bytes = %s }' % (bytes_term(name), bytes_term(text)) for name, text in tangling.files]
    name = 'web_%d' % seed
    return '''%s : shown %s %s %s %s %s ≡ record {
  nodes = %s;
  cyclic = %s;
  files = %s;
}
unfolding lexeme tokens_from occurrences_from digits levels heaviest plain_form
%s = refl
''' % (name, list_term([bytes_term(file) for file, _ in files]), list_term(lines), bytes_term(roles.out),
        list_term(list(map(title_term, plain))), list_term(list(map(title_term, cyclic))), list_term(nodes),
        list_term([str(graph.depth[node]) for node in cyclic]), list_term(made), name)


def write(folder, path, text):
    path = os.path.join(folder, path)
    os.makedirs(os.path.dirname(path), exist_ok=True)
    with open(path, 'w', encoding='utf-8') as file:
        file.write(text)


def main():
    folder, seed, expected = sys.argv[1], int(sys.argv[2]), int(sys.argv[3])
    lemmas = []
    while len(lemmas) < expected:
        made = lemma(seed)
        seed += 1
        if made is not None:
            lemmas.append(made)
    crate = os.path.basename(os.path.normpath(folder))
    write(folder, 'src/lib.rt', '//! Generated webs, computed.\n#![tactic(auto)]\n')
    write(folder, 'proofs/Shown.antt', SHOWN)
    modules = ['Shown']
    for at in range(0, expected, WEBS_A_FILE):
        modules.append('Webs%d' % (at // WEBS_A_FILE))
        write(folder, 'proofs/%s.antt' % modules[-1], HEAD % crate + '\n'.join(lemmas[at:at + WEBS_A_FILE]))
    write(folder, 'proofs/Lib.antt', ''.join('mod %s\n' % module for module in modules))
    print('%d webs, of seeds below %d' % (expected, seed))


if __name__ == '__main__':
    main()
