"""memory.py LIBRARY.so TEXT: the most memory that one parse of a text takes beyond the text itself, in bytes for each of its bytes."""
import ctypes
import mmap
import resource
import sys

parse = ctypes.CDLL(sys.argv[1]).simd_json_bench_parse
parse.argtypes = [ctypes.c_void_p, ctypes.c_size_t]
with open(sys.argv[2], "rb") as file:
    text = mmap.mmap(file.fileno(), 0, access=mmap.ACCESS_COPY)
# Each page becomes the process's own.
for i in range(0, len(text), mmap.PAGESIZE):
    text[i] = text[i]


def peak():
    return resource.getrusage(resource.RUSAGE_SELF).ru_maxrss * 1024


before = peak()
parse(ctypes.addressof(ctypes.c_char.from_buffer(text)), len(text))
print(f"{(peak() - before) / len(text):.2f}")
