"""Where Python begins in the file that scripts/host_program.py makes."""

import sys

from steelnewt_host.program import main

sys.exit(main())
