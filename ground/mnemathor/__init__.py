"""The star camera on the ground: own stars, own frames, pictures, and settings chosen by trial.

    from mnemathor import solving
    settings, samples, catalogue = solving.read_folder("night")
    print(solving.solve(settings, samples, catalogue).pointing)

`library` has the proved library's calls; everything else is made of them. A refusal is the
exception `Refused`, any other mistake `Mistake`.
"""

from .refusals import Mistake, Refused
from .version import VERSION as __version__

__all__ = ["Mistake", "Refused", "__version__"]
