"""The desk: a web application in which editors and indexers work on a thesaurus, at the end of the program's pipe.

  command_line, server, settings   how it is started, and how it serves
  page_processes, page_process     the processes that make pages, and one of them
  web/                             what people see: the application, forms, pages, templates
  interfaces/                      what other programs ask
  importing/                       posting files, tables of changes and vocabularies
  auth/                            who may come in, and what each may do
  words/                           the words of pages in three languages
  store/                           the program; the store's tables in the journal's file, of which pages
                                   are made; plans, one at a time; backups
  journal/                         who asked for what, and what came of it
  clock                            the office's days and times
  sample                           thirty instruments, with which everything can be tried
"""
