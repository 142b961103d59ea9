"""What the scripts in this folder's parent share. They read only: no call here writes a log."""
