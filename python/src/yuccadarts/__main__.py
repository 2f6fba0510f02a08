"""python3 -m yuccadarts"""
import sys

from .command import main

sys.exit(main())
