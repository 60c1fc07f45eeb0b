"""The checks of texcache, run by tools/check. Each subcommand is a module with HELP, add_arguments and run."""
