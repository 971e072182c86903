"""The library and the programs that are tested: the methods of `Library` are those of the model's `Model`."""

from data_calls import Data
from frame_calls import Filters, Frames, Hashes
from hashes import Xxh3
from index_calls import Index
from merge_calls import Merges
from part_calls import Parts
from program_calls import Programs
from run_calls import Runs


class Library:
    """The library for C, by a hash function, and the programs."""

    def __init__(self, library, program, tool, hashing):
        number = 0 if hashing is Xxh3 else 1
        self.hashing, self.hashes = hashing, Hashes(library, number)
        self.data, self.index = Data(library, number), Index(library)
        self.filters, self.frames = Filters(library, number), Frames(library, number)
        self.runs, self.merges = Runs(library, number), Merges(library, number)
        self.program, self.parts = Programs(program), Parts(tool, hashing)
