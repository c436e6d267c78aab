"""The shared library: where it is found, and the calls of include/lohandema.h that the package makes."""

import ctypes
import os
import re
import sys

VERSION = "0.6.0"
FILE = "liblohandema.so"

# The columns of a tree, as every call on one takes them
TREE = ("const uint64_t *key, size_t key_len, const size_t *own, size_t own_len, const size_t *begin, size_t begin_len, "
        "const size_t *total, size_t total_len")
BOX = "const double centre[3], double radius, size_t axes"

# The calls, word for word as the header declares them: python/tests/test_library.py compares
DECLARED = """
lohandema_ended lohandema_get_level(size_t axes, uint64_t key, uint64_t *level);
lohandema_ended lohandema_get_parent(size_t axes, uint64_t key, uint64_t *parent);
lohandema_ended lohandema_get_child_index(size_t axes, uint64_t key, uint64_t *index);
lohandema_ended lohandema_encode_morton_point(size_t axes, const uint64_t anchor[3], uint64_t level, uint64_t *key);
lohandema_ended lohandema_decode_key(size_t axes, uint64_t key, uint64_t anchor[3], uint64_t *level);
lohandema_ended lohandema_touching(size_t axes, uint64_t a, uint64_t b, bool *touches);
lohandema_ended lohandema_get_children(size_t axes, uint64_t key, uint64_t keys[LOHANDEMA_MOST_KEYS], size_t *len);
lohandema_ended lohandema_get_siblings(size_t axes, uint64_t key, uint64_t keys[LOHANDEMA_MOST_KEYS], size_t *len);
lohandema_ended lohandema_get_ancestors(size_t axes, uint64_t key, uint64_t keys[LOHANDEMA_MOST_KEYS], size_t *len);
lohandema_ended lohandema_get_neighbours(size_t axes, uint64_t key, uint64_t keys[LOHANDEMA_MOST_KEYS], size_t *len);
lohandema_ended lohandema_box_outcome(BOX);
lohandema_ended lohandema_point_to_anchor(BOX, const double point[3], uint64_t level, uint64_t anchor[3]);
lohandema_ended lohandema_point_to_key(BOX, const double point[3], uint64_t level, uint64_t *key);
lohandema_ended lohandema_get_side_length(BOX, uint64_t level, double *side);
lohandema_ended lohandema_get_center_length(BOX, uint64_t key, double middle[3], double *length);
lohandema_ended lohandema_are_adjacent(BOX, uint64_t first, uint64_t second, bool *adjacent);
lohandema_ended lohandema_calculate_tree_center_and_radius(const double *extents, size_t extents_len, double centre[3],
    double *radius, size_t *axes);
lohandema_ended lohandema_reference_depth(size_t axes, size_t sources, uint64_t *depth);
lohandema_ended lohandema_build_tree(BOX, const double *sources, size_t sources_len, const double *targets,
    size_t targets_len, size_t limit, size_t order, bool keep_empty, bool refine, uint64_t *work, size_t work_len,
    size_t *indices, size_t indices_len, uint64_t *key, size_t key_len, size_t *own, size_t own_len, size_t *begin,
    size_t begin_len, size_t *total, size_t total_len, size_t *nodes, uint64_t *depth);
lohandema_ended lohandema_build_tree_on_grid(BOX, const double *sources, size_t sources_len, const double origin[3],
    const double spacing[3], const size_t shape[3], size_t limit, size_t order, bool keep_empty, bool refine, uint64_t *work,
    size_t work_len, size_t *indices, size_t indices_len, uint64_t *key, size_t key_len, size_t *own, size_t own_len,
    size_t *begin, size_t begin_len, size_t *total, size_t total_len, size_t *nodes, uint64_t *depth);
lohandema_ended lohandema_add_source(BOX, const double *sources, size_t sources_len, const double point[3], size_t limit,
    bool keep_empty, TREE, const size_t *indices, size_t indices_len, uint64_t *work, size_t work_len, size_t *new_indices,
    size_t new_indices_len, uint64_t *new_key, size_t new_key_len, size_t *new_own, size_t new_own_len, size_t *new_begin,
    size_t new_begin_len, size_t *new_total, size_t new_total_len, size_t *nodes, uint64_t *depth);
lohandema_ended lohandema_count_nodes(BOX, const double *sources, size_t sources_len, const double *targets,
    size_t targets_len, size_t limit, size_t order, bool keep_empty, bool refine, uint64_t *work, size_t work_len,
    size_t *indices, size_t indices_len, size_t *nodes);
lohandema_ended lohandema_count_nodes_on_grid(BOX, const double *sources, size_t sources_len, const double origin[3],
    const double spacing[3], const size_t shape[3], size_t limit, size_t order, bool keep_empty, bool refine, uint64_t *work,
    size_t work_len, size_t *indices, size_t indices_len, size_t *nodes);
lohandema_ended lohandema_balance_tree(BOX, const double *points, size_t points_len, TREE, const size_t *indices,
    size_t indices_len, uint64_t *work, size_t work_len, size_t *new_indices, size_t new_indices_len, uint64_t *new_key,
    size_t new_key_len, size_t *new_own, size_t new_own_len, size_t *new_begin, size_t new_begin_len, size_t *new_total,
    size_t new_total_len, size_t *nodes, uint64_t *depth);
lohandema_ended lohandema_salvage(size_t axes, const uint64_t *key, size_t key_len, const size_t *own, size_t own_len,
    const size_t *begin, size_t begin_len, const size_t *indices, size_t indices_len, size_t *new_indices,
    size_t new_indices_len, uint64_t *new_key, size_t new_key_len, size_t *new_own, size_t new_own_len, size_t *new_begin,
    size_t new_begin_len, size_t *new_total, size_t new_total_len, uint64_t *codes, size_t codes_len, uint64_t *changed,
    size_t changed_len, size_t *nodes, size_t *sources, size_t *changes);
bool lohandema_is_well_formed(size_t axes, TREE);
uint64_t lohandema_depth_of(const uint64_t *key, size_t key_len);
bool lohandema_find_node(size_t axes, const uint64_t *key, size_t key_len, uint64_t wanted, size_t *node);
bool lohandema_is_leaf(const uint64_t *key, size_t key_len, size_t node);
size_t lohandema_next_of_level(const uint64_t *key, size_t key_len, uint64_t level, size_t from);
size_t lohandema_leaf_sources(const size_t *own, size_t own_len, const size_t *begin, size_t begin_len,
    const size_t *order, size_t order_len, size_t node, size_t *start);
size_t lohandema_cell_sources(const size_t *total, size_t total_len, const size_t *begin, size_t begin_len,
    const size_t *order, size_t order_len, size_t node, size_t *start);
lohandema_ended lohandema_points_to_keys(BOX, TREE, const double *points, size_t points_len, uint64_t *output,
    size_t output_len, size_t *steps);
lohandema_ended lohandema_point_to_leaf(BOX, TREE, const double point[3], uint64_t *leaf, uint64_t *steps);
lohandema_ended lohandema_get_points_to_leaves_map(size_t axes, TREE, const uint64_t *points, size_t points_len,
    size_t *starts, size_t starts_len, size_t *indices, size_t indices_len);
lohandema_ended lohandema_get_sourced_cells(size_t axes, TREE, uint64_t *cells, size_t cells_len, size_t *count);
lohandema_ended lohandema_get_interaction_lists(size_t axes, TREE, size_t *u_starts, size_t u_starts_len, uint64_t *u_keys,
    size_t u_keys_len, size_t *v_starts, size_t v_starts_len, uint64_t *v_keys, size_t v_keys_len, size_t *u, size_t *v);
lohandema_ended lohandema_get_list_sizes(size_t axes, TREE, size_t *work, size_t work_len, uint64_t *row, size_t row_len,
    size_t *u, size_t *v);
lohandema_ended lohandema_get_near_work(BOX, TREE, const double *targets, size_t targets_len, size_t *counts,
    size_t counts_len, uint64_t *work);
lohandema_ended lohandema_check_sums(size_t axes, TREE, const size_t *indices, size_t indices_len, const int64_t *readings,
    size_t readings_len, const size_t *u_starts, size_t u_starts_len, const uint64_t *u_keys, size_t u_keys_len,
    const size_t *v_starts, size_t v_starts_len, const uint64_t *v_keys, size_t v_keys_len, uint64_t *sums, size_t sums_len,
    size_t *leaves, size_t *additions);
lohandema_ended lohandema_write_tree(size_t axes, TREE, const size_t *indices, size_t indices_len, const size_t *u_starts,
    size_t u_starts_len, const uint64_t *u_keys, size_t u_keys_len, const size_t *v_starts, size_t v_starts_len,
    const uint64_t *v_keys, size_t v_keys_len, uint8_t *file, size_t file_len, size_t *written);
lohandema_ended lohandema_read_tree(const uint8_t *file, size_t file_len, size_t *indices, size_t indices_len, uint64_t *key,
    size_t key_len, size_t *own, size_t own_len, size_t *begin, size_t begin_len, size_t *total, size_t total_len,
    size_t *u_starts, size_t u_starts_len, uint64_t *u_keys, size_t u_keys_len, size_t *v_starts, size_t v_starts_len,
    uint64_t *v_keys, size_t v_keys_len, size_t *axes, size_t *nodes, size_t *sources, size_t *u, size_t *v);
"""

# What the shared library has beside them (c/library.c)
WORDS = ["refusal_name", "refusal_sentence", "reason_name", "reason_cure", "room_name", "change_sentence"]


class Ended(ctypes.Structure):
    """How a call ended: `lohandema_ended`."""

    _fields_ = [("number", ctypes.c_uint32), ("axis", ctypes.c_uint16), ("reason", ctypes.c_uint16),
                ("value", ctypes.c_size_t)]


TYPES = {"lohandema_ended": Ended, "size_t": ctypes.c_size_t, "uint64_t": ctypes.c_uint64, "double": ctypes.c_double,
         "bool": ctypes.c_bool}


class NoLibrary(ImportError):
    """The shared library is not there, or is not that of this package. The text says what to do."""


def declared():
    """The declarations, as a name, what it answers, and its arguments, each with type and name."""
    text = re.sub(r"\bTREE\b", TREE, re.sub(r"\bBOX\b", BOX, DECLARED))
    for answer, name, words in re.findall(r"(\w+) (\w+)\(([^)]*)\);", text):
        yield name, answer, [" ".join(word.split()) for word in words.split(",")]


def type_of(word):
    """The type of an argument: an address for what is a pointer or an array in C."""
    return ctypes.c_void_p if re.search(r"[*\[]", word) else TYPES[word.split()[0]]


def places():
    """Where the library may be, the first that is there counts."""
    here = os.path.dirname(os.path.realpath(__file__))
    root = os.path.dirname(os.path.dirname(here))
    return [os.path.join(here, FILE), os.path.join(root, "target", "native", FILE)]


def find():
    """The path of the library."""
    named = os.environ.get("LOHANDEMA_LIBRARY")
    if named:
        if not os.path.isfile(named):
            raise NoLibrary("LOHANDEMA_LIBRARY is %s, and no file is there: set it to the path of %s, or unset it"
                            % (named, FILE))
        return named
    for path in places():
        if os.path.isfile(path):
            return path
    raise NoLibrary("%s is neither %s: run rust/archive in the repository, which writes the last of these, or set "
                    "LOHANDEMA_LIBRARY to its path" % (FILE, " nor ".join(places())))


def load(path):
    """The library at a path, with the types of its calls."""
    if sys.version_info < (3, 8):
        raise NoLibrary("Lohandema needs Python 3.8 or later, and this is %d.%d: use a later one" % sys.version_info[:2])
    if sys.maxsize != 2 ** 63 - 1 or sys.byteorder != "little":
        raise NoLibrary("Lohandema needs a 64-bit little-endian processor: use the Python of one")
    try:
        library = ctypes.CDLL(path)
        version = word_of(library, "version", [])().decode()
    except (OSError, AttributeError) as error:
        raise NoLibrary("%s is no shared library of Lohandema for this machine (%s): run rust/archive, which writes one"
                        % (path, error)) from None
    if version != VERSION:
        raise NoLibrary("%s is of version %s, and this package of %s: run rust/archive in the repository of the package, "
                        "or take the package that came with the library" % (path, version, VERSION))
    try:
        for name, answer, words in declared():
            call = getattr(library, name)
            call.restype, call.argtypes = TYPES[answer], [type_of(word) for word in words]
        for name in WORDS:
            word_of(library, name, [ctypes.c_uint64])
    except AttributeError as error:
        raise NoLibrary("%s lacks a call that this package makes (%s): run rust/archive in the repository of the package"
                        % (path, error)) from None
    return library


def word_of(library, name, types):
    """One of the calls that answer text."""
    call = getattr(library, "lohandema_library_" + name)
    call.restype, call.argtypes = ctypes.c_char_p, types
    return call


library = load(find())


def call(name, *arguments):
    """Makes a call, and raises Refused where it was refused."""
    ended = getattr(library, "lohandema_" + name)(*arguments)
    if ended.number:
        from .refusal import Refused
        raise Refused(ended.number, ended.value, ended.axis, ended.reason)


def words(name, number):
    """The header's words for a number of a refusal, of a reason or of a slice."""
    return getattr(library, "lohandema_library_" + name)(number).decode()
