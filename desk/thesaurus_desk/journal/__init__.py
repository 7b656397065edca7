"""The journal: who asked for what, when, and what came of it. An SQLite file of its own beside the store.

  schema          its tables, and how they are opened
  entries         plans, written before they are sent and after
  references      references in a plan to what its earlier requests make
  history         the plans of a resource, a user, a kind or a time; dates; CSV
  batches         files that are brought in by several plans
  runs            how far tables are that are tried or performed
  proposals       proposals and comments
  queue           the records that are to be indexed, and what the head settles of it
  record_texts    what the catalogue says of records: titles, texts, links
  recovery        plans whose answer never came, and changes made by other means
  old_journals    what journals of earlier desks have in place of the changes of rows
  earlier_steps   what steps of earlier desks say of what they have changed
  rights          who may do what, as the head settles it
  watches         what people watch, and what has happened to it
  visitor_proposals  what visitors propose
  daily_counts    what was counted on each day
  values          definitions, notes, notations and other values of fields, which plans set beside the store
  releases        frozen exports with a name
  value_rules     why a value is refused
  term_sources    what becomes of the sources of terms by a plan
  consistency     the journal compared with the store, and values with the steps that set them
  chain           digests of plans, each over the one before
  forgotten_users a user's name taken out of the journal
  undo            the plan that takes another one back
  edit_conflicts  what the author of a form saw, and what has changed since
  past_replica    what was there after an earlier plan
"""
from thesaurus_desk.journal.entries import Acceptance, Answer, Batch, Draft, Journal, Plan, Request, Step
from thesaurus_desk.journal.history import Dates, Filter, History
from thesaurus_desk.journal.schema import journal_of

__all__ = [
    "Acceptance",
    "Answer",
    "Batch",
    "Dates",
    "Draft",
    "Filter",
    "History",
    "Journal",
    "Plan",
    "Request",
    "Step",
    "journal_of",
]
