"""Runs the command. The keyboard may end it while its modules are still being read."""
import sys

try:
    from katchidul_desk.command import main

    sys.exit(main(sys.argv[1:]))
except KeyboardInterrupt:
    sys.exit(130)
