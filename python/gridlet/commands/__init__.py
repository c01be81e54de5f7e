"""The subcommands of `gridlet-sheet`, a module each."""
