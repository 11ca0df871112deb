"""The modules of the commands in tools/. Each command imports its part of hp41/commands/, which imports from these modules."""
import os

# The folder of the commands and of the files that the modules read, and the top of the repository.
TOOLS = os.path.dirname(os.path.dirname(os.path.realpath(__file__)))
TOP = os.path.dirname(TOOLS)
