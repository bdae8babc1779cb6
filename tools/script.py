"""What scripts in Python begin with: their help, which is their docstring, and an end without a traceback if the reader of the
output has left."""
import os
import sys


def run(main, doc):
    """Prints the help if it is asked for, or runs `main`, and ends the script with its status."""
    try:
        if sys.argv[1:2] in (["-h"], ["--help"]):
            print(doc.strip("\n"))
            status = 0
        else:
            status = main()
        sys.stdout.flush()
    except BrokenPipeError:
        # What is left to be written goes nowhere. Not all was said, so this is no success.
        os.dup2(os.open(os.devnull, os.O_WRONLY), sys.stdout.fileno())
        status = 1
    sys.exit(status)
