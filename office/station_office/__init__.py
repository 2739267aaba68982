"""The parts of `station-office`: a module for each part of an office's day."""
import sys

import dockers

# The code that reads lists of places and compares dockers is the screen's.
sys.path.append(str(dockers.HERE / "screen"))
