"""What is put to the program and to the implementation: random worlds, hostile bytes, cases."""
