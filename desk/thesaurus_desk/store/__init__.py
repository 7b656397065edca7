"""The store under the desk: the program, plans for it, and the replica of its tables in the journal's file.

  program            the program's `script --plans`, at the end of a pipe
  desk_reader        what pages read of a desk, in whichever process they are made
  open_store         the store that a desk has open, from the start to the end, with its program and its journal
  plan_execution     plans of requests, one at a time
  plan_outcome       a plan as one line, and what came of it
  trial              what the program says that a plan would do, and what it destroys
  step_changes       which of a plan's changes are those of each step
  outcome            whether a plan's changes were made, where no answer came
  replica            all look-ups of the replica: what pages see
  model              what look-ups return: resources, links, postings, hits
  resources          look-ups of resources: labels, links, states
  arrays             where collections are in the hierarchy, and what is below a concept with them
  search             labels by their beginning, by words, with a typing error, by parts of words; notes
  postings           look-ups of postings and of records
  label_matches      terms in a text
  record_suggestions concepts for a record: by its words, and by records alike
  suggestion_quality suggestions measured on indexed records
  below_counts       how many records are at a concept or below it
  worklists          lists of concepts on which work is to be done
  quality            gaps, shapes of the hierarchy, and doubtful links
  similar_terms      terms that are mistaken for one another
  schema             the tables of the replica, those of the store among them, and its indexes
  text_keys          folded texts, sort keys and words
  read_transactions  a connection for each thread, and one moment of the replica for several look-ups
  build              makes a replica of a store
  difference         whether a replica still is that of its store: by a mark, else row by row
  changes            the changes of a plan, row by row, with the indexes that hang on them
  upkeep             keeps the replica that of its store: at the start, and after each plan
  public_view        which concepts the public doesn't see, and the hierarchy without them
  digest             a digest of all rows, by which an earlier state of the store is known again
  export_replica     a replica of an export, for what only reads
  copies             copies of the store, from which the program makes what it alone can make
  snapshot           all files of a desk as they are at one moment, and the socket by which tools get them
  release_export     the export of a release: of one moment, while others read and change the store
  saved_files        files in the forms of other programs, made one at a time by a process
  backups            backups while the desk runs
  health             how the desk is
  verdict            what a prover said of the program
  background_tasks   what is done beside the pages
  run_threads        tables that are tried or performed by threads of their own
  undo_run           undoes what was done by many plans, part by part
"""
