"""The commands of tools/: tools/NAME calls `main` of the module NAME, which has its help and its work."""
