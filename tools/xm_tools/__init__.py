"""Tools around xm_run: what a team does before and after a run. `tools/xm --help` lists the commands."""
