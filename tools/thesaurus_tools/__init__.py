"""What the tools of this folder share, a topic a module; a tool loads those that it needs.

How a tool is called and ends, what it reads and writes:
  command_line, files, requests, system_python
A run of the program, and one that serves; its limits, the shapes of its requests:
  program, server, limits, shapes
Kinds of things, which texts are alike, addresses of things elsewhere:
  kinds, texts, entities
Fields and their values, how a tool reads them, what an export says of them, where collections are in a hierarchy:
  fields, values, desk_values, rdf_values, export_values, arrays, public_values, note_sources, term_dates,
  lacking_fields
RDF: N-Triples, its other forms, a vocabulary of SKOS; what a parser of it may do:
  ntriples, rdf_files, rdf_streams, parser_bounds, parse_places, skos, skos_kinds, skos_xl, skos_update, mads, zthes,
  iso25964
What a converter makes of a vocabulary, the rules that it may break, and the script that loads it:
  vocabulary, finding_messages, link_rules, conversion, script_writer
Such a script, and how it is loaded:
  load_scripts, journal, loader, one_plan, recovery, progress
A folder of backups, copies of a store, a program that waits meanwhile; a desk that sends its store:
  backups, store_copies, program_hold, desk_socket
A thesaurus as objects, and where it comes from:
  store, store_options, table_store, export_store, program_store, public_store
Questions about a thesaurus, and what differs between two exports:
  reports, changes, release_changes
A web site:
  site_export, site_terms, site_pages, site_rdf
Tables that change a store: columns and cells, what rows ask for, how it is performed; a table of concepts:
  headings, spreadsheets, formulas, table_process, table_plans, row_changes, exact_rows, row_postings, row_order,
  drafts, exchanges, concept_finder, row_runner, table_messages, table_writer, catalogue_records
The forms of other programs, and those in which a desk saves an export:
  triple_export, desk_triples, public_triples, rdf_writer, marc, iso2709, marc_languages, print_pages, pdf, xml_texts,
  file_forms, desk_export, workbooks
A triple store that is kept equal to a store:
  triple_feed, triple_store, feed_state, line_differences
Other publishers' vocabularies, to which a desk's concepts are mapped; words without their endings:
  vocabulary_tables, vocabulary_dumps, vocabulary_loader, stems
"""
import sys

if sys.version_info < (3, 11):
    sys.exit(f"{sys.argv[0]}: it needs Python 3.11 or later, and {sys.executable} is {sys.version.split()[0]}")
