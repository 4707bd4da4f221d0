import sys

from ixm.desk.main import main

sys.exit(main())
