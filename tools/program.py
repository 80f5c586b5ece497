"""Finds the program that the checks of this folder run."""
import os
import subprocess

TOP = os.path.dirname(os.path.dirname(os.path.abspath(__file__)))


def find_program():
    """The program that ACE names, or the one that ./ace builds."""
    if 'ACE' in os.environ:
        return os.path.abspath(os.environ['ACE'])
    # the first call builds the program and tells of that on standard error
    subprocess.run([os.path.join(TOP, 'ace'), 'check'], stdin=subprocess.DEVNULL, capture_output=True, check=False)
    return os.path.join(TOP, 'crates/ace_cmd/out/ace_cmd')
