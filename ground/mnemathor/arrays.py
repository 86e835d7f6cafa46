"""The kinds of arrays that go from module to module, and of paths, as type hints name them."""

from pathlib import Path

import numpy as np
from numpy.typing import NDArray

# A file or folder, as a word of a command or as a path.
Where = str | Path
# A frame's samples by row and column, in the machine's own byte order.
Samples = NDArray[np.uint16]
# A ranking's record numbers, and the room that it is lent.
Words = NDArray[np.uint16]
# The records of a catalogue, of the kind `folder.STAR`; and bytes that the library is lent.
Records = NDArray[np.void]
Bytes = NDArray[np.uint8]
# The library's directions, a row each, and its matrices; and other whole numbers.
Rows = NDArray[np.int32]
Matrix = NDArray[np.int64]
Numbers = NDArray[np.int64]
Floats = NDArray[np.float64]
Flags = NDArray[np.bool_]
