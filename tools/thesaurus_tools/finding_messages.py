"""What a converter finds in a vocabulary that a thesaurus can't have, in words."""
from __future__ import annotations

# What a vocabulary has that a thesaurus can't have, by the keys of findings; the singular and the plural of what is
# counted. The desk has the same in its languages, without advice on options. `at` is the tag after an @, if there is
# one.
FINDINGS: dict[str, str | tuple[str, str]] = {
    "label_without_tag": "{label_kind} label {text!r} has no language tag; --lang gives one",
    "label_tag": "{label_kind} label {text!r}{at} has no legal language tag",
    "label_form": "{label_kind} label {text!r}{at} is empty, too long, or has spaces or control characters; --texts "
    "trim or cut",
    "second_preferred": "{label_kind} label {text!r}{at} is a second preferred label in its language",
    "other_kind": "{label_kind} label {text!r}{at} is a label of another kind already",
    "taken": "the preferred label {text!r}{at} is that of {other}",
    "taken_left_out": "the preferred label {text!r}{at} is that of {other}; the concept is left out",
    "qualified_long": "{text!r} is too long",
    "value_without_tag": "{property} {text!r} has no language tag; --lang gives one",
    "value_tag": "{property} {text!r}{at} has no legal language tag",
    "value_form": "{property} {text!r}{at} is empty, too long, or has control characters",
    "value_second": "{property} {text!r}{at}: it has {held!r} already",
    "value_taken": "{property} {text!r} is that of {other}",
    "superordinate": "{property} {target}, which is no concept in use of its scheme",
    "within_none": "its place within {target}, which is no collection of its scheme",
    "within_itself": "its place within {target}, which is within it",
    "scheme_left_out": "its scheme is left out",
    "places_below": (
        "the place of {n} concept below it; --adopt keeps one",
        "the place of {n} concepts below it; --adopt keeps one",
    ),
    "no_label": "the {kinds} has no preferred label",
    "no_label_of_scheme": "the {kinds} has no preferred label; --scheme gives one",
    "replaced_elsewhere": "{property} {target}, which is no other concept of its scheme",
    "link": "{link_kind} {target}",
    "ring": "{link_kind} {target}, which closes the ring {ring}",
    "text": "{property} {text!r}{at}",
    "resource": "{property} {target}",
    "class": "class {target}",
    "mads_class": "{property} as its class",
    "blank": "the {kinds} is a blank node",
    "several_kinds": "it is at once {kinds}; a {kind} stays",
    "further_scheme": "a further scheme, {target}",
    "no_scheme": "it has no scheme; --scheme makes one",
    "no_text": "{property} {target}, which is no text",
    "member": "the member {target}, which is no concept of the file",
    "old_iri": "the old IRI, as nothing replaces it",
    "no_resource": "{property} {target}, which is no resource with an IRI",
    "collection_link": "{property} {target}: a collection isn't above or below a concept, and keeps its members",
    "match_of_neither": "{property} {target}: neither is a concept of the file",
    "order": "{property}: the order of its members",
    "not_top": "{property} {target}, though it is no top concept",
}
# What the converter of tables finds beside these.
TABLE_FINDINGS = {
    "id_twice": "{text!r} is the id of another row",
    "no_id": "the row has no id, or several",
    "column": "column {column}: {text!r}",
    "column_without_name": "column without a name: {text!r}",
    "id_no_iri": "its id is no IRI that could be kept",
}
# What is lost, where it isn't the value of a property: how counts name it. The desk has those of SKOS.
LOST = {
    "class": "class",
    "blank": "blank node",
    "further_scheme": "further scheme",
    "member": "member",
    "old_iri": "old IRI",
    "places_below": "place",
    "within_none": "place in a collection",
    "within_itself": "place in a collection",
    "column": "column",
    "column_without_name": "column",
}
