"""python3 -m mqserve top."""
from .top import main

raise SystemExit(main())
