"""`python3 -m drafting` is `draft`, wherever this package is found."""
from .cli.begin import main

main()
