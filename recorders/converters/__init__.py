"""What recorders/convert is made of: `main` has the command line, `text` what is written, and a module for each form that is read."""
