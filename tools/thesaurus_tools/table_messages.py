"""Says in words what requests do and why they are refused."""
from __future__ import annotations

from collections.abc import Callable

from thesaurus_tools.shapes import shape_fault

KINDS = {"pref": "preferred term", "alt": "non-preferred term", "hidden": "hidden label", "scope": "scope note"}
LINKS = {
    "broader": "broader term",
    "broaderGeneric": "broader term (generic)", "broaderPartitive": "broader term (partitive)",
    "broaderInstantial": "broader term (instantial)", "related": "related term", "exact": "exact match",
    "close": "close match", "broad": "broader match", "narrow": "narrower match", "relMatch": "related match",
    "member": "member",
}  # fmt: skip
REASONS = {
    "UnknownResource": "no resource has this number",
    "WrongKind": "it isn't of the kind that is needed, or an IRI belongs to this thesaurus",
    "NotLive": "the concept is deprecated",
    "SameResource": "both are the same concept",
    "OtherScheme": "they are in two schemes (or, for a match, in one)",
    "LabelThere": "the term is there already",
    "NoSuchLabel": "the term isn't there",
    "LastPreferred": "it is the only preferred term",
    "S13": "the text is another term of this concept in this language already (S13)",
    "S14": "there is a preferred term in this language already (S14)",
    "PreferredTaken": "another concept of the scheme has this preferred term",
    "LinkThere": "the link is there already",
    "NoSuchLink": "the link isn't there",
    "Cycle": "a concept would be broader than itself",
    "S27": "two concepts would be related, and one broader than the other (S27)",
    "S46": "two concepts would be exact matches, and also broader or related matches (S46)",
    "HasPostings": "records are indexed with it: merge it, or move them first",
    "UnknownPosting": "no posting has this number",
    "Withdrawn": "the posting is withdrawn",
    "NotAtSource": "the posting is at another concept",
    "ListedTwice": "a posting is listed twice",
    "KeyReused": "a posting with this key has another record or concept",
    "TooMany": "a limit of the store is reached: raise it by an option --max-..",
    "BadTag": "the language tag isn't in its form",
    "BadText": "the text is empty, too long, or has a space at an end or a control character",
    "BadIri": "the address isn't in the form of an IRI",
    "BadKey": "the key isn't 1 to 64 plain characters without a space",
    "BadRecord": "the record's name is empty, too long, or has a control character",
    "BadNumber": "a number isn't from 1 to 4294967295",
    "BadShape": "a member is missing, is one too many, or has another type",
}

# Why a file isn't read as a table. The desk has the same in its languages.
TABLES = {
    "large": "more than {most} megabytes; cut the table into parts",
    "costly": "takes more than {seconds} seconds or {megabytes} megabytes of memory; save the table as CSV",
    "no_text": "no {encoding}; {advice}",
    "nul": "a NUL: no table of texts",
    "csv": "{error}",
    "empty": "no row: the first one names the columns",
    "many": "more than {rows} rows or {columns} columns, or {cells} cells",
    "wide": "more values than columns",
    "failed_formula": "{cell}: a formula that failed",
    "no_value": "a formula without its value: save the table in a spreadsheet first",
    "unpacks": "unpacks to {megabytes} megabytes: refused",
    "declares": "{part} declares a document type: refused",
    "damaged": "a damaged {form} file: {error}",
    "damaged_xml": "not well-formed XML: {error}",
    "other_archive": "an archive that is neither ODS nor XLSX",
    "needs": "{form} needs Debian's {package}; or save the table as CSV",
    "no_sheet": "no sheet {sheet!r}; it has {sheets}",
    "marc_8": "MARC-8: save the records as UTF-8",
    "no_key": "no column of keys: the first row names the columns key, title, text and link",
}

# Why a row of a table can't be done. The desk has the same in its languages.
ROWS = {
    "no_deed": "nothing is called {cell}; there are new, change, translate, rename, move, merge, deprecate, post, "
    "withdraw and split",
    "no_concept": "the row names no concept",
    "key_of_several": "one key, {value}, for {n} concepts: leave it empty, or write a row for each",
    "no_record": "the row names no record",
    "no_preferred": "the row has no preferred term",
    "several_values": "several values for {role}: {values}",
    "there": "“{text}” is there already: {concepts}",
    "taken": "“{text}” is the preferred term of another concept: {concepts}",
    "twice": "row {row} gives “{text}”, too",
    "other_term": "{number} is {term}, and not “{text}”: --lang says whether this is its new term",
    "has_preferred": "{term} has “{old}” in {tag}: --renames changes it to “{text}”",
    "lacks_preferred": "{term} has no preferred term in {tag}",
    "no_language": "{term} has no preferred term in a language: --lang TAG",
    "into_itself": "{term} can't be merged into itself",
    "not_indexed": "“{record}” isn't indexed with {term}",
    "wrong_kind": "{number} is a {found}, and no {kind}",
    "ended": "{number} ({term}) is deprecated",
    "merged": "{number} ({term}) is deprecated: use {end} ({its_term})",
    "several_have": "several have “{text}”: {concepts}; write the number of the one you mean",
    "term_of_ended": "“{text}” is a term of what is deprecated: {concepts}",
    "not_called": "no {kind} is called “{text}”",
    "ring": "row {row} makes “{text}”, and needs what this row makes, too: leave one of these links out, and add it "
    "later",
    "same_match": "{other} is {term}, too: one of them must go",
    "changed_since": "{term} was changed since this table was made; here: {here}; now: {now}",
    "seen_of_other": "what was seen is no longer beside its concept: it isn't that of {number} ({term})",
    "in_other_column": "“{text}” is in one column of the row, and no longer in another",
    "gone": "it isn’t in the file any more, and stays in use",
    "other_scheme": "it isn’t the scheme that is brought up to date: what the file has in it ({count}) is left out",
    "in_other_scheme": "the file has it in another scheme, {scheme}: it stays as it is",
}


def reason_of(answer: dict, request: dict) -> str:
    """Returns why the answer to a request isn't what was wanted; of a wrong shape, which member is wrong."""
    name = str(answer.get("no") or answer.get("bad") or answer.get("fault") or answer)
    why = name == "BadShape" and shape_fault({it: value for it, value in request.items() if it != "as"})
    return f"{name}: {why or REASONS[name]}" if name in REASONS else name


def sentence_of(request: dict, term: Callable[[int | str], str]) -> str:
    """Returns what a request does, with terms in place of numbers."""
    do, text = request["do"], f"“{request.get('text')}” ({request.get('tag')})"
    if do in ("scheme", "concept", "collection"):
        return f"new {do} {text}"
    if do == "outside":
        return f"outside concept {request['iri']}"
    if do == "addLabel":
        return f"{term(request['owner'])}: adds {KINDS[request['kind']]} {text}"
    if do == "dropLabel":
        return f"{term(request['owner'])}: removes {KINDS[request['kind']]} {text}"
    if do == "relabel":
        kept = ", keeps the old term as a non-preferred one" if request["keep"] else ""
        return f"{term(request['owner'])}: renames to {text}{kept}"
    if do in ("link", "unlink"):
        verb = "adds" if do == "link" else "removes"
        return f"{term(request['a'])}: {verb} {LINKS[request['kind']]} {term(request['b'])}"
    if do == "merge":
        return f"merges {term(request['source'])} into {term(request['target'])}"
    if do == "split":
        count = len(request["postings"])
        return f"splits {text} from {term(request['source'])}, with {count} record{'s' * (count != 1)}"
    if do == "deprecate":
        return f"deprecates {term(request['concept'])}"
    if do == "post":
        return f"indexes “{request['record']}” with {term(request['concept'])}"
    return f"withdraws posting {request['posting']}"
