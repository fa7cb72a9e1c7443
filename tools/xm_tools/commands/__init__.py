"""The commands of xm, a module each."""
