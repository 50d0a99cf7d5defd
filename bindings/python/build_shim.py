"""Makes the module blink._shim by cffi: the declarations that Python sees, and src/blink/_shim.c. cffi and not ctypes, since a call
costs little more than half as much (bench/calls measures both)."""

import os

from cffi import FFI

HERE = os.path.dirname(os.path.abspath(__file__))
DECLARED = """
typedef struct { uint64_t key; uint64_t value; } blink_row;
typedef struct { uint64_t next, last; size_t count; bool more; } shim_range;
typedef struct { uint32_t pages, count, most; ...; } shim_map;
#define SHIM_UNSURE ...
#define BLINK_OK ...
#define BLINK_ABSENT ...
#define BLINK_PRESENT ...
#define BLINK_NO_ROOM ...
#define BLINK_NO_MEMORY ...
#define BLINK_BAD_IMAGE ...
#define BLINK_CLOSED ...
#define BLINK_FEW_BYTES ...
#define BLINK_FEW_ROWS ...
#define BLINK_UNSTEADY ...
int32_t shim_open(uint32_t pages, uint32_t most, uint32_t count, const uint8_t *image, size_t length, shim_map **made);
void shim_close(shim_map *map);
void shim_free(shim_map *map);
int32_t shim_image(shim_map *map, uint8_t *bytes, size_t *size, bool *goes_on);
int32_t shim_reopen(shim_map *map, const uint8_t *bytes, size_t length);
uint64_t shim_find(shim_map *map, uint64_t key);
int32_t shim_find_surely(shim_map *map, uint64_t key, uint64_t *value);
int32_t shim_insert(shim_map *map, uint64_t key, uint64_t value, uint64_t *there);
int32_t shim_set(shim_map *map, uint64_t key, uint64_t value);
int32_t shim_put(shim_map *map, uint64_t key, uint64_t value, uint64_t *old);
int32_t shim_delete(shim_map *map, uint64_t key, uint64_t *gone);
int32_t shim_change(shim_map *map, uint64_t key, uint64_t old_value, uint64_t new_value, uint64_t *there);
int32_t shim_add(shim_map *map, uint64_t key, uint64_t delta, uint64_t *now);
int32_t shim_end(shim_map *map, bool is_last, blink_row *row);
int32_t shim_rows(shim_map *map, bool is_falling, size_t most, uint64_t *keys, uint64_t *values, shim_range *range);
int32_t shim_snapshot(shim_map *map, uint64_t from, uint64_t last, uint32_t rounds, blink_row *rows, size_t room, uint64_t *count);
int32_t shim_get_many(shim_map *map, const uint64_t *keys, size_t count, uint64_t *values, uint8_t *found);
int32_t shim_put_many(shim_map *map, const uint64_t *keys, const uint64_t *values, size_t count, size_t *done);
uint64_t shim_kept(const shim_map *map, uint8_t **bytes);
int64_t shim_length(const shim_map *map);
int64_t shim_free_pages(shim_map *map);
uint64_t blink_image_length(uint32_t pages);
const char *blink_text(int32_t code);
const char *blink_version(void);
"""


def places():
    """Where the headers and the archive are: below BLINK_PREFIX, which ./install has filled, or where pkg-config says."""
    prefix = os.environ.get("BLINK_PREFIX")
    if prefix:
        include, library = os.path.join(prefix, "include"), os.path.join(prefix, "lib")
    else:
        include, library = asked("includedir"), asked("libdir")
    archive = os.path.join(library, "libblink.a")
    if not os.path.exists(archive):
        raise SystemExit(f"blink: there is no {archive}: run ./install --library PREFIX and set BLINK_PREFIX to that PREFIX")
    return [include], archive


def asked(variable):
    """What pkg-config says of the installed library."""
    import subprocess

    try:
        said = subprocess.run(["pkg-config", f"--variable={variable}", "blink"], check=True, capture_output=True, text=True)
    except (OSError, subprocess.CalledProcessError) as error:
        raise SystemExit("blink: pkg-config knows no blink: install it, or set BLINK_PREFIX to where ./install has put it") from error
    return said.stdout.strip()


def made():
    include, archive = places()
    with open(os.path.join(HERE, "src", "blink", "_shim.c"), encoding="utf-8") as file:
        source = file.read()
    ffi = FFI()
    ffi.cdef(DECLARED)
    # A distribution links the shared object, so that it can mend the library alone; else the wheel needs no other file.
    if os.environ.get("BLINK_LINK") == "shared":
        linked = {"libraries": ["blink", "pthread"], "library_dirs": [os.path.dirname(archive)]}
    else:
        linked = {"libraries": ["pthread"], "extra_objects": [archive]}
    ffi.set_source("blink._shim", source, include_dirs=include, **linked)
    return ffi


ffi = made()
