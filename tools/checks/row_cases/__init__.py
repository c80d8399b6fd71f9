"""Tables of cases, each of which is run over the built program."""
