"""Runs the page: see `djq.web`."""

from .command import main

if __name__ == "__main__":
    main()
