"""What other programs ask: linked data, Skosmos' REST interface, the Reconciliation Service
API, and OAI-PMH.

They read a replica alone, so they serve a desk as well as an export that tools/publish reads.

  blueprint               all routes
  source                  what they read, and the triples of a resource
  whole_thesaurus         answers about a whole thesaurus, made once for each state
  linked_data             a resource at its address
  recent_changes          what has changed since a time
  skosmos                 Skosmos' REST interface
  skosmos_vocabulary      what its methods share
  skosmos_concepts        what it says of a concept
  skosmos_lists           what it says of a vocabulary
  skosmos_search          its searches
  oai                     the requests of OAI-PMH, and their errors
  oai_records             what a record of it says of a concept
  reconciliation          the routes of the Reconciliation Service API
  reconciliation_queries  its queries
  reconciliation_values   what it says of concepts that a client has
"""
from __future__ import annotations

from thesaurus_desk.interfaces.blueprint import interfaces_of
from thesaurus_desk.interfaces.source import Changes, Source

__all__ = ["Changes", "Source", "interfaces_of"]
