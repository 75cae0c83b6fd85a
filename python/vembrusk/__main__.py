"""Runs the command: `python3 -m vembrusk SUBCOMMAND`."""

from .command import main

main()
