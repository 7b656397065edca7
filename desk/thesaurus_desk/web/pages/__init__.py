"""The pages: a blueprint for each topic.

  home            the first page, the page of keys, the choice of languages
  search          search, suggestions, A to Z
  tree            the tree, the schemes, the collections
  concept         the page of a resource
  lists           work lists, and how long they are over time
  list_tables     the choice of what a list has as a table
  print_displays  displays on paper
  edit            terms, notes and links
  values          the values of fields
  work            statuses and tasks of concepts, and their lists
  own_fields      the office's own fields
  create          new concepts, collections and schemes
  arrays          arrays below a concept, the places of collections, and orders in them
  move            another place in the hierarchy
  merge           merges
  split           splits
  records         records and the concepts with which they are indexed
  reindex         indexes many records with another concept
  mapping         concepts beside those of other publishers' vocabularies
  indexing        one record at a time, with all its concepts
  queue           the records that are to be indexed
  imports         posting files, tables and vocabularies
  runs            how far a table is that is tried or performed
  bulk_changes    what is done with many concepts at once
  replacement     search and replace in terms and notes
  changes         the journal, and taking a change back
  past            a concept and the tree as they were on a day, and what differs between two
  releases        releases, what has changed since, and their downloads
  proposals       proposals and comments
  account         coming in, leaving, one's own account
  users           the users
  rights          who may do what
  for_me          what has happened to what the reader watches, and feeds
  visitors        what visitors propose
  state           how the desk is
  help            the tasks of the guide, and what each page is for
  about           what is proved, tested and trusted
  api             what a catalogue's program asks by a token
"""
