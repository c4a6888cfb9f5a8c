"""`python3 -m agefile` is the program agefile, whose modules are in the folder program."""
import os
import runpy

runpy.run_path(os.path.join(os.path.dirname(__file__), "program"), run_name="__main__")
