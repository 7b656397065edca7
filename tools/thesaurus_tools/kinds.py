"""The kinds of resources, labels and links: as requests name them, and as SKOS does."""

RESOURCE_KINDS = ("scheme", "concept", "collection")
LABEL_KINDS = ("pref", "alt", "hidden", "scope")
BROADER = ("broader", "broaderGeneric", "broaderPartitive", "broaderInstantial")
# The language of hidden labels that are codes of an earlier system: that of what is in no language.
CODES = "zxx"
MAPPINGS = ("exact", "close", "broad", "narrow", "relMatch")
# Links that are the same from both ends.
SYMMETRIC = ("related", "exact", "close", "relMatch")

CLASSES = {"ConceptScheme": "scheme", "Concept": "concept", "Collection": "collection"}
LABEL_PROPERTIES = {"prefLabel": "pref", "altLabel": "alt", "hiddenLabel": "hidden", "scopeNote": "scope"}
LINK_PROPERTIES = {
    "broader": "broader",
    "related": "related",
    "exactMatch": "exact",
    "closeMatch": "close",
    "broadMatch": "broad",
    "narrowMatch": "narrow",
    "relatedMatch": "relMatch",
    "member": "member",
}
