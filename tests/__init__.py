"""The tests of the tools, of the measurements, and of the built program from end to end."""

import signal
import sys
from pathlib import Path

TOP = Path(__file__).resolve().parent.parent
sys.path[:0] = [str(TOP / "tools"), str(TOP / "measure")]

# A run in the background begins with SIGINT ignored, and programs that a test starts and interrupts would be so too.
signal.signal(signal.SIGINT, signal.default_int_handler)
