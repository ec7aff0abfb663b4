"""Where the other programs are, of which one is named to each script here."""
import os


def program_beside(program, name):
    """The program of this name that was built with another one: in the folder of its crate or, if it is not there, beside the other."""
    folder = os.path.dirname(os.path.abspath(program))
    of_crate = os.path.join(os.path.dirname(os.path.dirname(folder)), name, "out", name)
    return of_crate if os.path.isfile(of_crate) else os.path.join(folder, name)
