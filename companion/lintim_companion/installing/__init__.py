"""What `./install` puts beside the program: help, manual pages, completion of shells."""
