"""python3 -m bukshena WORD ..: one of the commands of this package."""
import sys

from bukshena.command import main

sys.exit(main(sys.argv[1:]))
