"""Runs the viewer: python3 -m texcache.viewer FOLDER."""
import sys

from ._command import main

sys.exit(main())
