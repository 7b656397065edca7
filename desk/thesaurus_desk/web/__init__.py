"""What people see: the application, and what its pages share.

  app                the application: its pages, what templates may use, the pages of errors
  context            what a page sees of its request
  page_context       how templates call functions and macros
  paths              the paths of routes
  static_files       the addresses of scripts and style sheets
  office_link        passes on to the office what a process that makes pages can't do
  pages/             the pages by topic, each with its routes
  templates/         their HTML
  static/            scripts and style sheets
  refusals/          refusals in the reader's language
  request_text       a request of the journal as a sentence
  journal_text       plans of the journal, their outcomes, and conflicts in the reader's words
  notices            what a page says first: what was just done
  undo_pages         performs what undoes a long change, and leads to how far it is
  help_topics        which help each page has, and the tasks of the guide
  forms              a form as it was sent, with what is wrong in it
  form_keys          a form that is sent twice acts once
  form_submission    sends what a form asks for, and shows what came of it
  concept_choice     the concept that a field of a form names
  tick_lists         ticks in a long list: of postings, of concepts
  posting_keys       keys of postings that no person has given
  record_views       which records a search finds, and the concepts of one
  record_forms       the form for all concepts of a record, and the plan that it asks for
  open_records       who has which record open
  annif              concepts for a text, by another service
  proposal_forms     what the form for a proposal asks for
  merge_preview      what the program says that a merge would do
  rule_conflicts     along which resources a merge or a link would break the rule for which it is refused
  field_views        which fields and values of a resource its page shows
  array_views        what the page of a concept or a collection shows of its place
  watch_mail         mail with what has happened to what people watch
  work_views         what pages show of statuses and tasks, and the lists of these
  value_search       what a search finds in definitions and notes, and by notations
  value_copies       what becomes of the values of a concept that is merged or split
  resource_history   what the journal says of a resource
  table_pages        the pages of tables: what each row would do, or what came of it
  background         what takes long goes on by a thread of its own
  table_columns      what the columns of a table hold, in the reader's words
  list_forms         lists as tables, and with ticks for what is done with many at once
  spreadsheets       lists of resources as tables
  list_columns       the columns that they may have
"""
