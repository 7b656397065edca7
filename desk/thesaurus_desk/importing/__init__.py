"""What comes from files: posting files, tables of changes, and vocabularies in SKOS.

  posting_files   postings by their keys, as one entry of the journal
  record_files    records of the catalogue that are to be indexed, with their texts
  tables          tables of changes: read, and shown row by row
  table_runs      tables that were shown, performed row by row
  row_trial       what the program says of the rows of a table before any is done
  row_checks      whether the values that rows set are refused
  replacements    search and replace in terms and notes, as rows
  export_rows     values of fields from an export of this thesaurus, as a table
  vocabularies    vocabularies: converted, tried on a copy of the store, and performed
  skos_reports    what a converter reported, and what a copy of the store refused
  request_series  requests with names in place of numbers, in plans
  uploads         what users have sent and look at before it is performed
"""
