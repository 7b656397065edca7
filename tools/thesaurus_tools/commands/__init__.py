"""The office's commands, a module each: tools/NAME and thesaurus-NAME run its `command`."""
