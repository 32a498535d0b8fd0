"""What the scripts from_pdsc.py and pdsc_faults.py are made of. Nothing of it is proved."""
