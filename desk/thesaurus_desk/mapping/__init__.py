"""Mappings to other publishers' vocabularies, of which dumps are loaded.

  vocabularies  the vocabularies, in a file of their own
  decisions     what people decide, and what concepts elsewhere were called, in the journal
  loads         dumps that are sent to the desk
  candidates    what may mean the same as a concept, the best first
  entries       what a page shows of an entry of a vocabulary
  pairs         concepts and entries that may be taken together
  progress      how far a vocabulary is mapped, and what has become of targets
"""
